-- Who likes messages of person ?1: of each the latest like, of one date that of the lower message.
WITH
likes (person, message, date) AS (
    SELECT liked.person, liked.post, liked.date
    FROM message
    JOIN person_likes_post AS liked ON liked.post = message.id
    WHERE message.person = ?1
    UNION ALL
    SELECT liked.person, liked.comment, liked.date
    FROM message
    JOIN person_likes_comment AS liked ON liked.comment = message.id
    WHERE message.person = ?1
),
ranked AS (
    SELECT
        person, message, date,
        row_number() OVER (PARTITION BY person ORDER BY date DESC, message) AS place
    FROM likes
),
-- A like may be older than its message: what is left over is never below zero here.
timed AS (
    SELECT
        ranked.person, ranked.date, message.id, message.shown, ranked.date - message.date AS span,
        ((ranked.date - message.date) % 60000 + 60000) % 60000 AS rest
    FROM ranked
    JOIN message ON message.id = ranked.message
    WHERE ranked.place = 1
)
SELECT
    person.id, person.firstName, person.lastName, timed.date, timed.id, timed.shown,
    (timed.span - timed.rest) / 60000,
    NOT EXISTS (SELECT 1 FROM friend WHERE friend.person = ?1 AND friend.friend = person.id)
FROM timed
JOIN person ON person.id = timed.person
ORDER BY timed.date DESC, person.id
LIMIT 20;
