"""Reads files of cases, and says in words why a line is no case: which key, which cell, which type.

usage: from casefile import COLUMNS, Case, cases

It is not proved. The lines are as docs/FORMATS.md has them; where `snb validate` says column 0 of
a line, this says why. Whether an insert finds its nodes isn't looked at.
"""

import json
from collections.abc import Callable, Iterator
from pathlib import Path
from typing import NamedTuple

from shared import Wrong, json_of
from sqlite.fields import MAX_ID, MAX_TIME, MAX_YEAR
from sqlite.inserts import rows_of_insert

AUTHOR = "author:n firstName:t lastName:t"
PERSON = "person:n firstName:t lastName:t"
# The columns of each read by name, and of what type: number, text, flag, list of texts, of stays.
COLUMNS: dict[str, list[tuple[str, str]]] = {
    kind: [(name, of) for name, _, of in (it.partition(":") for it in text.split())]
    for kind, text in {
        "IS1": "firstName:t lastName:t birthday:n address:t browser:t city:n gender:t date:n",
        "IS2": f"message:n shown:t date:n post:n {AUTHOR}",
        "IS3": f"{PERSON} date:n",
        "IS4": "date:n shown:t",
        "IS5": PERSON,
        "IS6": "forum:n title:t moderator:n firstName:t lastName:t",
        "IS7": f"comment:n content:t date:n {AUTHOR} friends:f",
        "IC1": "person:n lastName:t distance:n birthday:n date:n gender:t browser:t address:t"
        " emails:l languages:l city:t universities:s companies:s",
        "IC2": f"{PERSON} message:n shown:t date:n",
        "IC7": f"{PERSON} date:n message:n shown:t minutes:n noFriend:f",
        "IC8": f"{AUTHOR} date:n comment:n content:t",
        "IC9": f"{PERSON} message:n shown:t date:n",
        "IC11": f"{PERSON} organisation:t year:n",
        "IC13": "length:n",
    }.items()
}
TYPES = {
    "n": "a number of 64 bits",
    "t": "a text",
    "f": "true or false",
    "l": "a list of texts",
    "s": "a list of stays",
}
OF_A_PERSON, OF_A_MESSAGE = ["IS1", "IS2", "IS3"], ["IS4", "IS5", "IS6", "IS7"]
# The reads that follow on the first row of a read.
FOLLOWING = dict.fromkeys(["IC1", "IC11"], OF_A_PERSON) | dict.fromkeys(
    ["IC2", "IC7", "IC8", "IC9"], OF_A_PERSON + OF_A_MESSAGE
)
ID = ("an id", MAX_ID)
DATE = ("a date in milliseconds", MAX_TIME)
PARAMETERS: dict[str, list[tuple[str, int]]] = dict.fromkeys(COLUMNS, [ID]) | {
    "IC1": [ID, ("a name", 0)],
    "IC2": [ID, DATE],
    "IC9": [ID, DATE],
    "IC11": [ID, ("a name", 0), ("a year", MAX_YEAR)],
    "IC13": [ID, ID],
}


class Case(NamedTuple):
    """A case with the number of its line: an insert, or a read with its reply."""

    line: int
    insert: str
    kind: str
    params: list
    reply: list


class Odd(float):
    """A number that is none here: with a point or an exponent, or -0."""


def integer(digits: str) -> int | Odd:
    return Odd("nan") if digits == "-0" or len(digits) > 20 else int(digits)


def refuse(word: str) -> Odd:
    raise ValueError(f"no JSON: {word}")


def kind_of(value: object) -> str:
    """What a value is, in words, with its text where that is short."""
    for types, what in [
        ((bool,), "a flag"),
        ((int,), "a number"),
        ((float,), "a number with a point or an exponent, or -0"),
        ((str,), "a text"),
        ((list,), "an array"),
        ((dict,), "an object"),
    ]:
        if isinstance(value, types):
            shown = "" if isinstance(value, float) else f": {json_of(value)}"
            return what + (shown if len(shown) <= 80 else f"{shown[:80]}..")
    return "null"


def is_number(value: object, most: int = MAX_ID, least: int = -MAX_ID - 1) -> bool:
    return isinstance(value, int) and not isinstance(value, bool) and least <= value <= most


def is_stay(value: object) -> bool:
    if not isinstance(value, list) or len(value) != 3:
        return False
    name, year, place = value
    return isinstance(name, str) and is_number(year, MAX_YEAR, 0) and isinstance(place, str)


FITS: dict[str, Callable[[object], bool]] = {
    "n": is_number,
    "t": lambda it: isinstance(it, str),
    "f": lambda it: isinstance(it, bool),
    "l": lambda it: isinstance(it, list) and all(isinstance(one, str) for one in it),
    "s": lambda it: isinstance(it, list) and all(map(is_stay, it)),
}


def look_at_row(kind: str, row: object, where: str) -> None:
    columns = COLUMNS[kind]
    if not isinstance(row, list):
        raise ValueError(f"{where} is no array of cells but {kind_of(row)}")
    if len(row) != len(columns):
        raise ValueError(f"{where} has {len(row)} cells, and {kind} has {len(columns)}")
    for at, ((name, of), cell) in enumerate(zip(columns, row), 1):
        if not FITS[of](cell):
            found = kind_of(cell)
            raise ValueError(f"{where}, column {at} ({name}) isn't {TYPES[of]} but {found}")


def names_of(kind: str, first: list) -> list[str]:
    """The reads whose answers a reply has, where its first answer has these rows."""
    return [kind, *(FOLLOWING.get(kind, []) if first else [])]


def look_at_reply(kind: str, reply: object) -> None:
    if not isinstance(reply, list) or not reply:
        raise ValueError(f"key reply is no array of answers but {kind_of(reply)}")
    if not isinstance(reply[0], list):
        raise ValueError(f"key reply: answer 1 is no array of rows but {kind_of(reply[0])}")
    wanted = names_of(kind, reply[0])
    if len(reply) != len(wanted):
        why = "one" if len(wanted) == 1 else f"{len(wanted)}, {', '.join(wanted)}"
        raise ValueError(f"key reply has {len(reply)} answers, and {kind} has {why} here")
    for at, (name, answer) in enumerate(zip(wanted, reply), 1):
        where = f"key reply: answer {at} ({name})"
        if not isinstance(answer, list):
            raise ValueError(f"{where} is no array of rows but {kind_of(answer)}")
        for count, row in enumerate(answer, 1):
            look_at_row(name, row, f"{where}, row {count}")


def look_at_params(kind: str, params: object) -> None:
    wanted = PARAMETERS[kind]
    if not isinstance(params, list) or len(params) != len(wanted):
        what = kind_of(params) if not isinstance(params, list) else f"{len(params)}"
        raise ValueError(f"key params: {kind} has {len(wanted)} parameters, and here is {what}")
    for at, ((what, most), value) in enumerate(zip(wanted, params), 1):
        if not (is_number(value, most, 0) if most else isinstance(value, str)):
            raise ValueError(f"key params: parameter {at} isn't {what} but {kind_of(value)}")


def object_of(line: bytes) -> dict:
    """The object of a line."""
    try:
        text = line.decode("utf-8")
    except UnicodeDecodeError as wrong:
        raise ValueError(f"not UTF-8, from byte {wrong.start + 1} on") from None
    if text.startswith("\ufeff"):
        raise ValueError("it begins with a byte order mark")
    try:
        value = json.loads(text, parse_float=Odd, parse_int=integer, parse_constant=refuse)
        # A half of a surrogate pair can be spelled, but is no text.
        json_of(value).encode("utf-8")
    except RecursionError:
        raise ValueError("no JSON: too many brackets in one another") from None
    except UnicodeEncodeError:
        raise ValueError("no JSON: a text has half of a surrogate pair") from None
    except json.JSONDecodeError as wrong:
        raise ValueError(f"no JSON: {wrong.msg}, at letter {wrong.colno}") from None
    if not isinstance(value, dict):
        raise ValueError(f"no object but {kind_of(value)}")
    return value


def case_of(line: bytes, at: int) -> Case:
    value = object_of(line)
    keys = ", ".join(sorted(value)) or "none"
    if set(value) == {"insert"}:
        text = value["insert"]
        if not isinstance(text, str) or "\n" in text:
            raise ValueError(f"key insert isn't the line of a stream but {kind_of(text)}")
        try:
            rows_of_insert(text)
        except ValueError as wrong:
            raise ValueError(f"key insert: {wrong}") from None
        return Case(at, text, "", [], [])
    if set(value) != {"params", "read", "reply"}:
        raise ValueError(f"the keys are {keys}, and not insert, nor params, read, reply")
    kind = value["read"]
    if not isinstance(kind, str) or kind not in COLUMNS:
        raise ValueError(f"key read is none of the fourteen kinds but {kind_of(kind)}")
    look_at_params(kind, value["params"])
    look_at_reply(kind, value["reply"])
    return Case(at, "", kind, value["params"], value["reply"])


def lines(path: Path) -> Iterator[tuple[int, bytes]]:
    """The lines with a byte after the first, which says that the file is one of cases."""
    first = True
    with open(path, "rb") as file:
        for at, line in enumerate(file, 1):
            line = line.removesuffix(b"\n")
            if not line:
                continue
            if not first:
                yield at, line
                continue
            first = False
            try:
                if object_of(line) != {"cases": 1}:
                    raise ValueError('the first line isn\'t {"cases":1}')
            except ValueError as wrong:
                raise Wrong(f"{path}:{at}: {wrong}") from None
    if first:
        raise Wrong(f"{path}: no line has a byte")


def read(path: Path, at: int, line: bytes) -> Case:
    try:
        return case_of(line, at)
    except ValueError as wrong:
        raise Wrong(f"{path}:{at}: {wrong}") from None
