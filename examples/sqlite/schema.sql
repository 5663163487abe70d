-- The 33 tables of a dataset, three tables that the reads want, and the triggers that keep these.
-- An id goes up to 2^63 - 1, a date is its milliseconds since 1970, and text is in order by its
-- UTF-8 bytes.

CREATE TABLE place (
    id INTEGER PRIMARY KEY,
    name TEXT NOT NULL,
    url TEXT NOT NULL,
    kind TEXT NOT NULL
);
CREATE TABLE tagclass (
    id INTEGER PRIMARY KEY,
    name TEXT NOT NULL,
    url TEXT NOT NULL
);
CREATE TABLE tag (
    id INTEGER PRIMARY KEY,
    name TEXT NOT NULL,
    url TEXT NOT NULL
);
CREATE TABLE organisation (
    id INTEGER PRIMARY KEY,
    kind TEXT NOT NULL,
    name TEXT NOT NULL,
    url TEXT NOT NULL
);
CREATE TABLE person (
    id INTEGER PRIMARY KEY,
    firstName TEXT NOT NULL,
    lastName TEXT NOT NULL,
    gender TEXT NOT NULL,
    birthday INTEGER NOT NULL,
    creationDate INTEGER NOT NULL,
    locationIP TEXT NOT NULL,
    browserUsed TEXT NOT NULL
);
CREATE TABLE forum (
    id INTEGER PRIMARY KEY,
    title TEXT NOT NULL,
    creationDate INTEGER NOT NULL
);
CREATE TABLE post (
    id INTEGER PRIMARY KEY,
    imageFile TEXT NOT NULL,
    creationDate INTEGER NOT NULL,
    locationIP TEXT NOT NULL,
    browserUsed TEXT NOT NULL,
    language TEXT NOT NULL,
    content TEXT NOT NULL,
    length INTEGER NOT NULL
);
CREATE TABLE comment (
    id INTEGER PRIMARY KEY,
    creationDate INTEGER NOT NULL,
    locationIP TEXT NOT NULL,
    browserUsed TEXT NOT NULL,
    content TEXT NOT NULL,
    length INTEGER NOT NULL
);

CREATE TABLE place_isPartOf_place (
    place INTEGER PRIMARY KEY REFERENCES place,
    whole INTEGER NOT NULL REFERENCES place
);
CREATE TABLE tagclass_isSubclassOf_tagclass (
    tagclass INTEGER PRIMARY KEY REFERENCES tagclass,
    super INTEGER NOT NULL REFERENCES tagclass
);
CREATE TABLE tag_hasType_tagclass (
    tag INTEGER PRIMARY KEY REFERENCES tag,
    tagclass INTEGER NOT NULL REFERENCES tagclass
);
CREATE TABLE organisation_isLocatedIn_place (
    organisation INTEGER PRIMARY KEY REFERENCES organisation,
    place INTEGER NOT NULL REFERENCES place
);
CREATE TABLE person_email_emailaddress (
    person INTEGER NOT NULL REFERENCES person,
    email TEXT NOT NULL,
    PRIMARY KEY (person, email)
) WITHOUT ROWID;
CREATE TABLE person_speaks_language (
    person INTEGER NOT NULL REFERENCES person,
    language TEXT NOT NULL,
    PRIMARY KEY (person, language)
) WITHOUT ROWID;
CREATE TABLE person_hasInterest_tag (
    person INTEGER NOT NULL REFERENCES person,
    tag INTEGER NOT NULL REFERENCES tag,
    PRIMARY KEY (person, tag)
) WITHOUT ROWID;
CREATE TABLE person_isLocatedIn_place (
    person INTEGER PRIMARY KEY REFERENCES person,
    place INTEGER NOT NULL REFERENCES place
);
CREATE TABLE person_knows_person (
    low INTEGER NOT NULL REFERENCES person,
    high INTEGER NOT NULL REFERENCES person,
    date INTEGER NOT NULL,
    PRIMARY KEY (low, high),
    CHECK (low < high)
) WITHOUT ROWID;
CREATE TABLE person_likes_post (
    person INTEGER NOT NULL REFERENCES person,
    post INTEGER NOT NULL REFERENCES post,
    date INTEGER NOT NULL,
    PRIMARY KEY (person, post)
) WITHOUT ROWID;
CREATE TABLE person_likes_comment (
    person INTEGER NOT NULL REFERENCES person,
    comment INTEGER NOT NULL REFERENCES comment,
    date INTEGER NOT NULL,
    PRIMARY KEY (person, comment)
) WITHOUT ROWID;
CREATE TABLE person_studyAt_organisation (
    person INTEGER NOT NULL REFERENCES person,
    organisation INTEGER NOT NULL REFERENCES organisation,
    year INTEGER NOT NULL,
    PRIMARY KEY (person, organisation)
) WITHOUT ROWID;
CREATE TABLE person_workAt_organisation (
    person INTEGER NOT NULL REFERENCES person,
    organisation INTEGER NOT NULL REFERENCES organisation,
    year INTEGER NOT NULL,
    PRIMARY KEY (person, organisation)
) WITHOUT ROWID;
CREATE TABLE forum_containerOf_post (
    forum INTEGER NOT NULL REFERENCES forum,
    post INTEGER PRIMARY KEY REFERENCES post
);
CREATE TABLE forum_hasMember_person (
    forum INTEGER NOT NULL REFERENCES forum,
    person INTEGER NOT NULL REFERENCES person,
    date INTEGER NOT NULL,
    PRIMARY KEY (forum, person)
) WITHOUT ROWID;
CREATE TABLE forum_hasModerator_person (
    forum INTEGER PRIMARY KEY REFERENCES forum,
    person INTEGER NOT NULL REFERENCES person
);
CREATE TABLE forum_hasTag_tag (
    forum INTEGER NOT NULL REFERENCES forum,
    tag INTEGER NOT NULL REFERENCES tag,
    PRIMARY KEY (forum, tag)
) WITHOUT ROWID;
CREATE TABLE post_hasCreator_person (
    post INTEGER PRIMARY KEY REFERENCES post,
    person INTEGER NOT NULL REFERENCES person
);
CREATE TABLE post_hasTag_tag (
    post INTEGER NOT NULL REFERENCES post,
    tag INTEGER NOT NULL REFERENCES tag,
    PRIMARY KEY (post, tag)
) WITHOUT ROWID;
CREATE TABLE post_isLocatedIn_place (
    post INTEGER PRIMARY KEY REFERENCES post,
    place INTEGER NOT NULL REFERENCES place
);
CREATE TABLE comment_hasCreator_person (
    comment INTEGER PRIMARY KEY REFERENCES comment,
    person INTEGER NOT NULL REFERENCES person
);
CREATE TABLE comment_hasTag_tag (
    comment INTEGER NOT NULL REFERENCES comment,
    tag INTEGER NOT NULL REFERENCES tag,
    PRIMARY KEY (comment, tag)
) WITHOUT ROWID;
CREATE TABLE comment_isLocatedIn_place (
    comment INTEGER PRIMARY KEY REFERENCES comment,
    place INTEGER NOT NULL REFERENCES place
);
CREATE TABLE comment_replyOf_post (
    comment INTEGER PRIMARY KEY REFERENCES comment,
    post INTEGER NOT NULL REFERENCES post
);
CREATE TABLE comment_replyOf_comment (
    comment INTEGER PRIMARY KEY REFERENCES comment,
    parent INTEGER NOT NULL REFERENCES comment
);

-- Each friendship twice, once from each side.
CREATE TABLE friend (
    person INTEGER NOT NULL,
    friend INTEGER NOT NULL,
    date INTEGER NOT NULL,
    PRIMARY KEY (person, friend)
) WITHOUT ROWID;
-- Posts and comments with their author, and what they show: their ids are in one space.
CREATE TABLE message (
    id INTEGER PRIMARY KEY,
    person INTEGER NOT NULL,
    date INTEGER NOT NULL,
    shown TEXT NOT NULL
);
-- Each comment with its one parent, a post or a comment.
CREATE TABLE reply (
    comment INTEGER PRIMARY KEY,
    parent INTEGER NOT NULL
);

CREATE INDEX message_by_person ON message (person, date);
CREATE INDEX reply_by_parent ON reply (parent);
CREATE INDEX like_by_post ON person_likes_post (post);
CREATE INDEX like_by_comment ON person_likes_comment (comment);

CREATE TRIGGER friends AFTER INSERT ON person_knows_person BEGIN
    INSERT INTO friend VALUES (NEW.low, NEW.high, NEW.date), (NEW.high, NEW.low, NEW.date);
END;
CREATE TRIGGER posts AFTER INSERT ON post_hasCreator_person BEGIN
    INSERT INTO message
    SELECT id, NEW.person, creationDate, CASE content WHEN '' THEN imageFile ELSE content END
    FROM post WHERE id = NEW.post;
END;
CREATE TRIGGER comments AFTER INSERT ON comment_hasCreator_person BEGIN
    INSERT INTO message
    SELECT id, NEW.person, creationDate, content FROM comment WHERE id = NEW.comment;
END;
CREATE TRIGGER replies_to_posts AFTER INSERT ON comment_replyOf_post BEGIN
    INSERT INTO reply VALUES (NEW.comment, NEW.post);
END;
CREATE TRIGGER replies_to_comments AFTER INSERT ON comment_replyOf_comment BEGIN
    INSERT INTO reply VALUES (NEW.comment, NEW.parent);
END;
