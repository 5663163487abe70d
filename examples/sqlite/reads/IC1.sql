-- The persons of the first name ?2 within three steps of person ?1. Lists are arrays in JSON.
WITH RECURSIVE
walk (person, steps) AS (
    SELECT ?1, 0
    UNION
    SELECT friend.friend, walk.steps + 1
    FROM walk
    JOIN friend ON friend.person = walk.person
    WHERE walk.steps < 3
),
near (person, distance) AS (
    SELECT person, min(steps) FROM walk GROUP BY person HAVING min(steps) > 0
),
found AS (
    SELECT person.*, near.distance
    FROM near
    JOIN person ON person.id = near.person
    WHERE person.firstName = ?2
    ORDER BY near.distance, person.lastName, person.id
    LIMIT 20
)
SELECT
    found.id, found.lastName, found.distance, found.birthday, found.creationDate, found.gender,
    found.browserUsed, found.locationIP,
    (
        SELECT json_group_array(email) FROM (
            SELECT email FROM person_email_emailaddress WHERE person = found.id ORDER BY email
        )
    ),
    (
        SELECT json_group_array(language) FROM (
            SELECT language FROM person_speaks_language WHERE person = found.id ORDER BY language
        )
    ),
    city.name,
    (
        SELECT json_group_array(json_array(name, year, place)) FROM (
            SELECT organisation.name, stay.year, place.name AS place
            FROM person_studyAt_organisation AS stay
            JOIN organisation ON organisation.id = stay.organisation
            JOIN organisation_isLocatedIn_place AS at ON at.organisation = organisation.id
            JOIN place ON place.id = at.place
            WHERE stay.person = found.id
            ORDER BY organisation.name, stay.year, place.name
        )
    ),
    (
        SELECT json_group_array(json_array(name, year, place)) FROM (
            SELECT organisation.name, stay.year, place.name AS place
            FROM person_workAt_organisation AS stay
            JOIN organisation ON organisation.id = stay.organisation
            JOIN organisation_isLocatedIn_place AS at ON at.organisation = organisation.id
            JOIN place ON place.id = at.place
            WHERE stay.person = found.id
            ORDER BY organisation.name, stay.year, place.name
        )
    )
FROM found
JOIN person_isLocatedIn_place AS lives ON lives.person = found.id
JOIN place AS city ON city.id = lives.place
ORDER BY found.distance, found.lastName, found.id;
