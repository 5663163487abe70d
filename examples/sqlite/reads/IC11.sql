-- Who works since before the year ?3 in places named ?2, of those within two steps of person ?1.
WITH near (person) AS (
    SELECT friend FROM friend WHERE person = ?1
    UNION
    SELECT second.friend
    FROM friend AS first
    JOIN friend AS second ON second.person = first.friend
    WHERE first.person = ?1 AND second.friend <> ?1
)
SELECT person.id, person.firstName, person.lastName, organisation.name, work.year
FROM near
JOIN person ON person.id = near.person
JOIN person_workAt_organisation AS work ON work.person = person.id
JOIN organisation ON organisation.id = work.organisation
JOIN organisation_isLocatedIn_place AS at ON at.organisation = organisation.id
JOIN place ON place.id = at.place
WHERE place.name = ?2 AND work.year < ?3
ORDER BY work.year, person.id, organisation.name DESC
LIMIT 10;
