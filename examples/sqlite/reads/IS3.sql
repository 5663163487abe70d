-- The friends of person ?1.
SELECT person.id, person.firstName, person.lastName, friend.date
FROM friend
JOIN person ON person.id = friend.friend
WHERE friend.person = ?1
ORDER BY friend.date DESC, person.id;
