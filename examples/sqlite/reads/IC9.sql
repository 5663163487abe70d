-- The latest messages of the persons within two steps of person ?1, before the date ?2.
WITH near (person) AS (
    SELECT friend FROM friend WHERE person = ?1
    UNION
    SELECT second.friend
    FROM friend AS first
    JOIN friend AS second ON second.person = first.friend
    WHERE first.person = ?1 AND second.friend <> ?1
)
SELECT
    person.id, person.firstName, person.lastName, message.id, message.shown, message.date
FROM near
JOIN message ON message.person = near.person
JOIN person ON person.id = message.person
WHERE message.date < ?2
ORDER BY message.date DESC, message.id
LIMIT 20;
