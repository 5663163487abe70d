-- The ten latest messages of person ?1, each with the post at its root and that post's author.
WITH RECURSIVE
latest (id, date, shown) AS (
    SELECT id, date, shown FROM message WHERE person = ?1 ORDER BY date DESC, id DESC LIMIT 10
),
-- From each of them up to its root, which alone is a post.
above (id, date, shown, ancestor) AS (
    SELECT id, date, shown, id FROM latest
    UNION ALL
    SELECT above.id, above.date, above.shown, reply.parent
    FROM above
    JOIN reply ON reply.comment = above.ancestor
)
SELECT above.id, above.shown, above.date, root.post, author.id, author.firstName, author.lastName
FROM above
-- A cross join keeps this order: the few messages first, and then their posts by key.
CROSS JOIN post_hasCreator_person AS root
JOIN person AS author ON author.id = root.person
WHERE root.post = above.ancestor
ORDER BY above.date DESC, above.id DESC;
