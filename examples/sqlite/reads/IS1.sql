-- The person ?1.
SELECT firstName, lastName, birthday, locationIP, browserUsed, place, gender, creationDate
FROM person
JOIN person_isLocatedIn_place ON person_isLocatedIn_place.person = person.id
WHERE person.id = ?1;
