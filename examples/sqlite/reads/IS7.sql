-- The comments that reply to message ?1, and whether each author is a friend of the message's.
SELECT
    answer.id, answer.shown, answer.date, author.id, author.firstName, author.lastName,
    EXISTS (
        SELECT 1 FROM friend WHERE friend.person = message.person AND friend.friend = author.id
    )
FROM message
JOIN reply ON reply.parent = message.id
JOIN message AS answer ON answer.id = reply.comment
JOIN person AS author ON author.id = answer.person
WHERE message.id = ?1
ORDER BY answer.date DESC, author.id, answer.id;
