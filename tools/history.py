"""Reads a log event by event, and keeps of each operation where it started and finished.

usage: from history import History, events, header

It is not proved. The log is as docs/FORMATS.md has it, of version 1 or 2. What isn't is said with
the number of its line. A history keeps some 40 bytes for each operation, and no line of the log.
"""

import re
from array import array
from collections.abc import Iterator
from pathlib import Path
from typing import NamedTuple

from schedule import Schedule
from shared import Wrong
from sqlite.fields import MAX_ID

MAX_COUNT = 2**32 - 1
NUMBER = re.compile(rb"0|[1-9][0-9]{0,18}")
# The names of the fields after the first, by letter; of a Finish in both versions.
FIELDS = {
    (b"S", 1): ("operation", "worker", "moment"),
    (b"F", 1): ("operation", "worker", "moment", "front"),
    (b"F", 2): ("operation", "worker", "moment", "front", "count of rows"),
    (b"H", 1): ("worker",),
}
FIELDS |= {(b"S", 2): FIELDS[b"S", 1], (b"H", 2): FIELDS[b"H", 1]}


class Header(NamedTuple):
    version: int
    workers: int
    # How many operations a log of version 2 says that the plan has.
    operations: int | None


class Event(NamedTuple):
    """Events are counted from 0, lines from 1. A front and rows are those of a Finish."""

    number: int
    line: int
    letter: str
    operation: int
    worker: int
    at: int
    front: int
    rows: int | None


def number(field: bytes, what: str, most: int) -> int:
    if not NUMBER.fullmatch(field) or int(field) > most:
        shown = field.decode("utf-8", "backslashreplace")
        raise ValueError(f"the {what} is no number up to {most}: '{shown}'")
    return int(field)


def header_of(line: bytes) -> Header:
    fields = line.split(b"|")
    if fields[0] != b"snblog":
        raise ValueError("the first field of the header isn't 'snblog'")
    if len(fields) not in (3, 4) or fields[1] not in (b"1", b"2"):
        raise ValueError("the header is neither 'snblog|1|W' nor 'snblog|2|W|N'")
    version = int(fields[1])
    if len(fields) != version + 2:
        raise ValueError(f"a header of version {version} has {version + 2} fields")
    workers = number(fields[2], "number of workers", 8)
    if not workers:
        raise ValueError("there is at least one worker")
    counted = number(fields[3], "number of operations", MAX_COUNT) if version == 2 else None
    return Header(version, workers, counted)


def event_of(line: bytes, version: int, count: int, at: int) -> Event:
    letter, *fields = line.split(b"|")
    names = FIELDS.get((letter, version))
    if not names:
        raise ValueError("an event begins with S, F or H")
    if len(fields) != len(names):
        shown = letter.decode()
        raise ValueError(f"an event {shown} of version {version} has {len(names) + 1} fields")
    found = [
        number(field, what, MAX_ID if what == "moment" else MAX_COUNT)
        for field, what in zip(fields, names)
    ]
    if letter == b"H":
        return Event(count, at, "H", -1, found[0], -1, 0, None)
    rows = found[4] if len(found) == 5 else None
    return Event(count, at, letter.decode(), *found[:3], found[3] if len(found) > 3 else 0, rows)


def numbered(log: Path) -> Iterator[tuple[int, bytes]]:
    """The lines with a byte."""
    with open(log, "rb") as file:
        for at, line in enumerate(file, 1):
            line = line.removesuffix(b"\n")
            if line:
                yield at, line


def header(log: Path) -> Header:
    for at, line in numbered(log):
        try:
            return header_of(line)
        except ValueError as wrong:
            raise Wrong(f"{log}:{at}: {wrong}") from None
    raise Wrong(f"{log}: no line has a byte")


def events(log: Path) -> Iterator[Event]:
    lines, version = numbered(log), header(log).version
    next(lines)
    for count, (at, line) in enumerate(lines):
        try:
            yield event_of(line, version, count, at)
        except ValueError as wrong:
            raise Wrong(f"{log}:{at}: {wrong}") from None


class History:
    """By operation its first Start and its first Finish: event, moment, worker. -1 where none is."""

    def __init__(self, log: Path, schedule: Schedule) -> None:
        self.header = header(log)
        none = array("q", [-1]) * len(schedule)
        self.start, self.started, self.finish, self.finished = none[:], none[:], none[:], none[:]
        self.front = array("q", [0]) * len(schedule)
        self.worker = array("b", [-1]) * len(schedule)
        # The operation that the worker had in hand before.
        self.previous = array("i", [-1]) * len(schedule)
        # How many rows the read gave, where the log says it.
        self.rows = none[:]
        self.halts: dict[int, int] = {}
        self.count, self.last = 0, 0
        had = [-1] * 256
        for event in events(log):
            self.count += 1
            if event.letter == "H":
                self.halts.setdefault(event.worker, event.number)
            elif event.operation < len(schedule):
                self.note(event, had)
            self.last = max(self.last, event.at)

    def note(self, event: Event, had: list[int]) -> None:
        operation = event.operation
        if event.letter == "S":
            if self.start[operation] < 0:
                self.start[operation], self.started[operation] = event.number, event.at
                if event.worker < 128:
                    self.worker[operation] = event.worker
                    self.previous[operation] = had[event.worker]
                    had[event.worker] = operation
        elif self.finish[operation] < 0:
            self.finish[operation], self.finished[operation] = event.number, event.at
            self.front[operation] = event.front
            if event.rows is not None:
                self.rows[operation] = event.rows
