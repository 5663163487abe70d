-- The forum of the post at the root of message ?1, and the forum's moderator.
WITH RECURSIVE above (id) AS (
    SELECT ?1
    UNION ALL
    SELECT reply.parent FROM above JOIN reply ON reply.comment = above.id
)
SELECT forum.id, forum.title, person.id, person.firstName, person.lastName
FROM above
JOIN forum_containerOf_post AS held ON held.post = above.id
JOIN forum ON forum.id = held.forum
JOIN forum_hasModerator_person AS moderates ON moderates.forum = forum.id
JOIN person ON person.id = moderates.person;
