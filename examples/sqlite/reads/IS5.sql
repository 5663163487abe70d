-- Who wrote message ?1.
SELECT person.id, person.firstName, person.lastName
FROM message
JOIN person ON person.id = message.person
WHERE message.id = ?1;
