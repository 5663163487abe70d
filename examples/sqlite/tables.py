"""The columns of the 33 tables, and the rows of a folder, as docs/FORMATS.md has them.

usage: from sqlite.tables import TABLES, rows

The tables stand in the order in which they are loaded: each node before what refers to it.
"""

from collections.abc import Callable, Iterator
from itertools import count
from pathlib import Path

from sqlite.fields import date, day, is_text, length, lines, name, number, text, year

Cell = int | str
Column = Callable[[str], Cell]

TABLES: dict[str, tuple[Column, ...]] = {
    "place": (number, text, text, text),
    "tagclass": (number, text, text),
    "tag": (number, text, text),
    "organisation": (number, text, text, text),
    "person": (number, text, text, text, day, date, text, text),
    "forum": (number, text, date),
    "post": (number, text, date, text, text, text, text, length),
    "comment": (number, date, text, text, text, length),
    "place_isPartOf_place": (number, number),
    "tagclass_isSubclassOf_tagclass": (number, number),
    "tag_hasType_tagclass": (number, number),
    "organisation_isLocatedIn_place": (number, number),
    "person_email_emailaddress": (number, name),
    "person_speaks_language": (number, name),
    "person_hasInterest_tag": (number, number),
    "person_isLocatedIn_place": (number, number),
    "person_knows_person": (number, number, date),
    "person_likes_post": (number, number, date),
    "person_likes_comment": (number, number, date),
    "person_studyAt_organisation": (number, number, year),
    "person_workAt_organisation": (number, number, year),
    "forum_containerOf_post": (number, number),
    "forum_hasMember_person": (number, number, date),
    "forum_hasModerator_person": (number, number),
    "forum_hasTag_tag": (number, number),
    "post_hasCreator_person": (number, number),
    "post_hasTag_tag": (number, number),
    "post_isLocatedIn_place": (number, number),
    "comment_hasCreator_person": (number, number),
    "comment_hasTag_tag": (number, number),
    "comment_isLocatedIn_place": (number, number),
    "comment_replyOf_post": (number, number),
    "comment_replyOf_comment": (number, number),
}


class Refused(ValueError):
    """What is wrong with a file, in one line, with its name and the number of the line."""


def lower_first(row: list[Cell]) -> list[Cell]:
    """A friendship has no direction: its row has the lower id first."""
    return [*sorted(row[:2], key=int), *row[2:]]


def row_of(table: str, line: str) -> list[Cell]:
    columns, fields = TABLES[table], line.split("|")
    if len(fields) == len(columns) + 1 and not fields[-1]:
        fields.pop()
    if len(fields) != len(columns):
        raise ValueError(f"{len(fields)} fields, and not {len(columns)}")
    if not is_text(line):
        raise ValueError("not UTF-8")
    row = [read(field) for read, field in zip(columns, fields)]
    return lower_first(row) if table == "person_knows_person" else row


def parts(folder: Path, table: str) -> Iterator[Path]:
    """The files of a table, which are counted up to the first that isn't there."""
    for part in count():
        path = folder / f"{table}_{part}_0.csv"
        if not path.exists():
            if part == 0:
                raise Refused(f"{path.name}: absent")
            return
        yield path


def rows(folder: Path, table: str) -> Iterator[tuple[str, list[Cell]]]:
    """The rows of a table, each with where it stands."""
    for path in parts(folder, table):
        following = lines(path)
        next(following, None)  # the header
        for count_of, line in following:
            place = f"{path.name}:{count_of}"
            try:
                yield place, row_of(table, line)
            except ValueError as wrong:
                raise Refused(f"{place}: {wrong}") from None
