"""The rows that each of the eight inserts adds, table by table, as docs/FORMATS.md has them.

usage: from sqlite.inserts import rows_of_insert
"""

from collections.abc import Callable, Iterator

from sqlite.fields import MAX_TIME, date, day, ids, is_text, length, names, number, stays
from sqlite.tables import Cell, lower_first

Row = tuple[str, list[Cell]]


def person(fields: list[str]) -> Iterator[Row]:
    given, (city, languages, emails, tags, studies, works) = fields[:8], fields[8:]
    key = number(given[0])
    yield "person", [key, *given[1:4], day(given[4]), date(given[5]), *given[6:]]
    yield "person_isLocatedIn_place", [key, number(city)]
    yield from (("person_email_emailaddress", [key, it]) for it in names(emails))
    yield from (("person_speaks_language", [key, it]) for it in names(languages))
    yield from (("person_hasInterest_tag", [key, it]) for it in ids(tags))
    yield from (("person_studyAt_organisation", [key, *it]) for it in stays(studies))
    yield from (("person_workAt_organisation", [key, *it]) for it in stays(works))


def like_of_post(fields: list[str]) -> Iterator[Row]:
    yield "person_likes_post", [number(fields[0]), number(fields[1]), date(fields[2])]


def like_of_comment(fields: list[str]) -> Iterator[Row]:
    yield "person_likes_comment", [number(fields[0]), number(fields[1]), date(fields[2])]


def forum(fields: list[str]) -> Iterator[Row]:
    key = number(fields[0])
    yield "forum", [key, fields[1], date(fields[2])]
    yield "forum_hasModerator_person", [key, number(fields[3])]
    yield from (("forum_hasTag_tag", [key, it]) for it in ids(fields[4]))


def membership(fields: list[str]) -> Iterator[Row]:
    yield "forum_hasMember_person", [number(fields[1]), number(fields[0]), date(fields[2])]


def post(fields: list[str]) -> Iterator[Row]:
    given, (author, held, country, tags) = fields[:8], fields[8:]
    key = number(given[0])
    yield "post", [key, given[1], date(given[2]), *given[3:7], length(given[7])]
    yield "forum_containerOf_post", [number(held), key]
    yield "post_hasCreator_person", [key, number(author)]
    yield "post_isLocatedIn_place", [key, number(country)]
    yield from (("post_hasTag_tag", [key, it]) for it in ids(tags))


def comment(fields: list[str]) -> Iterator[Row]:
    given, (author, country, to_post, to_comment, tags) = fields[:6], fields[6:]
    key = number(given[0])
    if (to_post == "-1") == (to_comment == "-1"):
        raise ValueError("a comment has one parent")
    yield "comment", [key, date(given[1]), *given[2:5], length(given[5])]
    yield "comment_hasCreator_person", [key, number(author)]
    yield "comment_isLocatedIn_place", [key, number(country)]
    if to_comment == "-1":
        yield "comment_replyOf_post", [key, number(to_post)]
    else:
        yield "comment_replyOf_comment", [key, number(to_comment)]
    yield from (("comment_hasTag_tag", [key, it]) for it in ids(tags))


def friendship(fields: list[str]) -> Iterator[Row]:
    persons: list[Cell] = [number(fields[0]), number(fields[1])]
    yield "person_knows_person", lower_first([*persons, date(fields[2])])


# By opId: how many fields follow t, t_d and opId, and the rows that they say.
INSERTS: dict[str, tuple[int, Callable[[list[str]], Iterator[Row]]]] = {
    "1": (14, person),
    "2": (3, like_of_post),
    "3": (3, like_of_comment),
    "4": (5, forum),
    "5": (3, membership),
    "6": (12, post),
    "7": (11, comment),
    "8": (3, friendship),
}


def rows_of_insert(line: str) -> list[Row]:
    """The rows of a line of an update stream, in the order in which they refer to one another."""
    moment, depends, kind, *fields = line.split("|") if line.count("|") >= 2 else ["", "", ""]
    if kind not in INSERTS:
        raise ValueError(f"no insert: {line!r}")
    number(moment, MAX_TIME)
    number(depends, MAX_TIME)
    wanted, read = INSERTS[kind]
    if len(fields) != wanted or not is_text(line):
        raise ValueError(f"insert {kind} has {wanted} fields more, and these are UTF-8")
    return list(read(fields))
