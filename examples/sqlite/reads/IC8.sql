-- The latest comments that reply to messages of person ?1.
SELECT person.id, person.firstName, person.lastName, answer.date, answer.id, answer.shown
FROM message
JOIN reply ON reply.parent = message.id
JOIN message AS answer ON answer.id = reply.comment
JOIN person ON person.id = answer.person
WHERE message.person = ?1
ORDER BY answer.date DESC, answer.id
LIMIT 20;
