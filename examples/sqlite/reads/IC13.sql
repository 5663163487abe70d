-- How many friendships lead from person ?1 to person ?2 at least, or -1.
WITH RECURSIVE
reached (person) AS (
    SELECT id FROM person WHERE id = ?1
    UNION
    SELECT friend.friend FROM reached JOIN friend ON friend.person = reached.person
),
-- The walks by their steps, so that the first that ends at ?2 is a shortest.
walk (person, steps) AS (
    SELECT ?1, 0 WHERE ?2 IN (SELECT person FROM reached)
    UNION
    SELECT friend.friend, walk.steps + 1
    FROM walk
    JOIN friend ON friend.person = walk.person
    WHERE walk.steps < (SELECT count(*) FROM reached)
    ORDER BY 2
)
SELECT coalesce((SELECT steps FROM walk WHERE person = ?2 LIMIT 1), -1);
