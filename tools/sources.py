"""The files that LDBC's generator writes, by their names: which are read, and as what.

usage: from sources import Source, found_in

It is not proved. A generator of several threads counts in the first number of a name, one with
several partitions in the second: `person_1_0.csv`, `updateStream_1_0_person.csv`. `snb` reads what
is numbered `person_I_0.csv` and `updateStream_0_J_person.csv` without a gap, so files are renumbered
in the order of both numbers.
"""

import os
import re
from collections import defaultdict
from pathlib import Path
from typing import NamedTuple

import shared  # noqa: F401, since it makes the examples known
from plan import PARAMETERS
from shared import Wrong
from sqlite.tables import TABLES

TABLE = re.compile(r"([A-Za-z]+(?:_[A-Za-z]+)*)_([0-9]+)_([0-9]+)\.csv")
STREAM = re.compile(r"updateStream_([0-9]+)_([0-9]+)_(person|forum)\.csv")
PARAMETER = re.compile(r"interactive_([0-9]+)_param\.txt")
# Edges that a serializer leaves out which writes them, as it calls it, merged into the node.
MERGED = (
    "place_isPartOf_place",
    "tagclass_isSubclassOf_tagclass",
    "tag_hasType_tagclass",
    "organisation_isLocatedIn_place",
    "person_isLocatedIn_place",
    "forum_containerOf_post",
    "forum_hasModerator_person",
    "post_hasCreator_person",
    "post_isLocatedIn_place",
    "comment_hasCreator_person",
    "comment_isLocatedIn_place",
    "comment_replyOf_post",
    "comment_replyOf_comment",
)
# And those that one leaves out which writes them as lists of the person.
COMPOSITE = ("person_email_emailaddress", "person_speaks_language")


class Source(NamedTuple):
    """A file that is read, its new name, and what it is: a table, a stream or parameters."""

    path: Path
    name: str
    what: str
    # Of a table and of parameters, how many fields a line has.
    fields: int | None


class Found(NamedTuple):
    sources: list[Source]
    others: list[Path]
    missing: list[str]


def kind_of(name: str) -> tuple[str, tuple[int, int]] | None:
    """What a file is by its name, and its two numbers. None is read of any other name."""
    if stream := STREAM.fullmatch(name):
        return f"updateStream {stream[3]}", (int(stream[1]), int(stream[2]))
    if (table := TABLE.fullmatch(name)) and table[1] in TABLES:
        return table[1], (int(table[2]), int(table[3]))
    if (given := PARAMETER.fullmatch(name)) and int(given[1]) in PARAMETERS:
        return f"interactive {given[1]}", (0, 0)
    return None


def named(what: str, count: int) -> str:
    """The name under which `snb` reads the file of a number."""
    if what in TABLES:
        return f"{what}_{count}_0.csv"
    first, kind = what.split(" ")
    return f"updateStream_0_{count}_{kind}.csv" if first == "updateStream" else f"{first}_{kind}_param.txt"


def fields_of(what: str) -> int | None:
    if what in TABLES:
        return len(TABLES[what])
    first, kind = what.split(" ")
    return len(PARAMETERS[int(kind)]) if first == "interactive" else None


def found_in(folder: Path) -> Found:
    """All files at and below a folder, and which tables aren't among them."""
    by_kind: dict[str, dict[tuple[int, int], Path]] = defaultdict(dict)
    others = []
    for place, folders, names in os.walk(folder):
        folders.sort()
        for name in sorted(names):
            path, kind = Path(place) / name, kind_of(name)
            if kind is None:
                others.append(path)
            elif kind[1] in by_kind[kind[0]]:
                raise Wrong(f"{path}: also in {by_kind[kind[0]][kind[1]].parent}; give the folder of one dataset")
            else:
                by_kind[kind[0]][kind[1]] = path
    order = [*TABLES, "updateStream person", "updateStream forum", *(f"interactive {it}" for it in PARAMETERS)]
    sources = [
        Source(path, named(what, count), what, fields_of(what))
        for what in order
        for count, (_, path) in enumerate(sorted(by_kind[what].items()))
    ]
    return Found(sources, others, [it for it in TABLES if not by_kind[it]])


def serializer(missing: list[str]) -> str:
    """Which serializer wrote the files, where it is one whose files aren't read."""
    merged, composite = set(MERGED) <= set(missing), set(COMPOSITE) <= set(missing)
    if set(missing) != {*(MERGED if merged else ()), *(COMPOSITE if composite else ())}:
        return ""
    return {
        (True, True): "CsvCompositeMergeForeign",
        (True, False): "CsvMergeForeign",
        (False, True): "CsvComposite",
    }.get((merged, composite), "")
