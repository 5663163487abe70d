"""Reads the fields of tables, update streams and parameter files, as docs/FORMATS.md has them.

usage: from sqlite.fields import date, lines, number

Each reader takes the text of a field and raises ValueError where the field isn't so.
"""

import calendar
import re
from collections.abc import Iterator
from pathlib import Path

MAX_TIME = 253402300799999
MAX_ID = 2**63 - 1
MAX_YEAR = 9999
MAX_LENGTH = 2**31 - 1
NUMBER = re.compile(r"0|[1-9][0-9]{0,18}")
DAY = re.compile(r"([0-9]{4})-([0-9]{2})-([0-9]{2})")
TIME = re.compile(r"([0-9]{2}):([0-9]{2}):([0-9]{2})\.([0-9]{3})\+0000")


def number(field: str, most: int = MAX_ID) -> int:
    if not NUMBER.fullmatch(field) or int(field) > most:
        raise ValueError(f"no number up to {most}: {field!r}")
    return int(field)


def year(field: str) -> int:
    return number(field, MAX_YEAR)


def length(field: str) -> int:
    return number(field, MAX_LENGTH)


def midnight(field: str) -> int:
    """The milliseconds of a day in words."""
    parts = DAY.fullmatch(field)
    if not parts:
        raise ValueError(f"no day: {field!r}")
    one, month, day_of = map(int, parts.groups())
    if one < 1970 or not 1 <= month <= 12 or not 1 <= day_of <= calendar.monthrange(one, month)[1]:
        raise ValueError(f"no day: {field!r}")
    return calendar.timegm((one, month, day_of, 0, 0, 0)) * 1000


def day(field: str) -> int:
    return midnight(field) if "-" in field else number(field, MAX_TIME)


def date(field: str) -> int:
    if "-" not in field:
        return number(field, MAX_TIME)
    first, _, second = field.partition("T")
    parts = TIME.fullmatch(second)
    if not parts:
        raise ValueError(f"no date: {field!r}")
    hours, minutes, seconds, rest = map(int, parts.groups())
    if hours > 23 or minutes > 59 or seconds > 59:
        raise ValueError(f"no date: {field!r}")
    return midnight(first) + ((hours * 60 + minutes) * 60 + seconds) * 1000 + rest


def text(field: str) -> str:
    return field


def name(field: str) -> str:
    """A text that isn't empty."""
    if not field:
        raise ValueError("an empty text")
    return field


def elements(field: str) -> list[str]:
    """The elements of a list, each once."""
    return list(dict.fromkeys(field.split(";"))) if field else []


def names(field: str) -> list[str]:
    return [name(it) for it in elements(field)]


def ids(field: str) -> list[int]:
    return [number(it) for it in elements(field)]


def stays(field: str) -> list[tuple[int, int]]:
    """Ids of organisations, each with a year."""
    pairs = [it.partition(",") for it in elements(field)]
    return [(number(one), year(two)) for one, _, two in pairs]


def lines(path: Path) -> Iterator[tuple[int, str]]:
    """The lines of a file that have a byte, with their numbers. Only a line feed ends a line."""
    # A byte that is no UTF-8 becomes a lone surrogate, which is told below with its line.
    opened = open(path, encoding="utf-8", errors="surrogateescape", newline="\n")
    with opened as file:
        for count, line in enumerate(file, 1):
            line = line.removesuffix("\n")
            if line:
                yield count, line


def is_text(line: str) -> bool:
    """Whether all of a line was UTF-8."""
    return line.isascii() or not any("\ud800" <= it <= "\udfff" for it in line)
