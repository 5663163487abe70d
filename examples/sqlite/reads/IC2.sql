-- The latest messages of the friends of person ?1, up to the date ?2.
SELECT
    person.id, person.firstName, person.lastName, message.id, message.shown, message.date
FROM friend
JOIN message ON message.person = friend.friend
JOIN person ON person.id = message.person
WHERE friend.person = ?1 AND message.date <= ?2
ORDER BY message.date DESC, message.id
LIMIT 20;
