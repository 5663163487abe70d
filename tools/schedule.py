"""The plan of a folder in arrays: some 40 bytes for each operation, whatever its line has.

usage: from schedule import Schedule

It is not proved. The plan is the one of docs/FORMATS.md, of a folder that `snb check` accepts with
the same frequencies. It is numbered as `plan.py` of the examples numbers it, which holds each line.
"""

import heapq
from array import array
from collections.abc import Iterator
from pathlib import Path
from typing import BinaryIO, NamedTuple

import shared  # noqa: F401, since it makes the examples known
from plan import MILLION, frequencies, parameters, ratio, streams
from shared import Wrong, json_of
from sqlite.fields import MAX_TIME

INSERTS = {
    1: "AddPerson",
    2: "LikePost",
    3: "LikeComment",
    4: "AddForum",
    5: "AddMember",
    6: "AddPost",
    7: "AddComment",
    8: "AddFriend",
}
PERSON, FORUM = 1, 4
# The kind of a read of query q is q more than this.
READ = 100


class Step(NamedTuple):
    """An operation before it has a number. What it is at is a place in a file or in a list."""

    t: int
    lane: int
    place: int
    depends: int
    kind: int
    at: int
    line: int


def steps_of(path: Path, lane: int) -> Iterator[Step]:
    """The inserts of a stream, each with the number of its line and where in bytes that begins."""
    at = place = 0
    with open(path, "rb") as file:
        for line, text in enumerate(file, 1):
            begin, at = at, at + len(text)
            if text == b"\n":
                continue
            fields = text.split(b"|", 3)
            try:
                t, depends, kind = map(int, fields[:3])
            except ValueError:
                raise Wrong(f"{path.name}:{line}: no insert") from None
            if kind not in INSERTS or max(t, depends) > MAX_TIME:
                raise Wrong(f"{path.name}:{line}: no insert")
            yield Step(t, lane, place, depends, kind, begin, line)
            place += 1


class Schedule:
    """Operations by number. Times are milliseconds, and due moments count from the run's begin."""

    def __init__(self, folder: Path, word: str, every: str) -> None:
        self.millionths, self.every = ratio(word), frequencies(every)
        persons, forums = streams(folder, "person"), streams(folder, "forum")
        self.paths = persons + forums
        # The lanes from the first of these to before the second are forum streams.
        self.forums = (len(persons), len(self.paths))
        self.params = {query: parameters(folder, query) for query in self.every}
        self.t, self.depends, self.at = array("q"), array("q"), array("q")
        self.kind, self.lane = array("H"), array("H")
        self.line, self.before = array("I"), array("i")
        # The inserts of persons and forums, in the order of t.
        self.dependencies, self.dependency_t = array("i"), array("q")
        self.files: dict[int, BinaryIO] = {}
        self.fill()

    def close(self) -> None:
        for file in self.files.values():
            file.close()

    def __enter__(self) -> "Schedule":
        return self

    def __exit__(self, *_: object) -> None:
        self.close()

    def __len__(self) -> int:
        return len(self.t)

    def fill(self) -> None:
        # Each stream is in the order of t, so a merge of all needs no sorting.
        updates = heapq.merge(*(steps_of(path, lane) for lane, path in enumerate(self.paths)))
        waiting: list[Step] = []
        last = [-1] * (len(self.paths) + 1)
        for number, update in enumerate(updates, 1):
            # The lane of reads is the last of all, so reads come after all updates of their t.
            if waiting and waiting[0].t < update.t:
                self.take(waiting, last)
                waiting = []
            self.take([update], last)
            waiting += self.reads_with(update.t, number)
        self.take(waiting, last)

    def reads_with(self, t: int, number: int) -> Iterator[Step]:
        for query, often in self.every.items():
            if number % often == 0:
                at = (number // often - 1) % len(self.params[query])
                yield Step(t, len(self.paths), 0, 0, READ + query, at, 0)

    def take(self, steps: list[Step], last: list[int]) -> None:
        for step in steps:
            number = len(self.t)
            self.t.append(step.t)
            self.depends.append(step.depends)
            self.at.append(step.at)
            self.kind.append(step.kind)
            self.lane.append(step.lane)
            self.line.append(step.line)
            self.before.append(last[step.lane])
            last[step.lane] = number
            if step.kind in (PERSON, FORUM):
                self.dependencies.append(number)
                self.dependency_t.append(step.t)

    def due(self, number: int) -> int:
        return (self.t[number] - self.t[0]) * self.millionths // MILLION

    def is_read(self, number: int) -> bool:
        return self.kind[number] > READ

    def is_dependent(self, number: int) -> bool:
        return self.kind[number] != PERSON and not self.is_read(number)

    def is_in_turn(self, number: int) -> bool:
        """Whether its lane is a forum stream, where each waits for the one before."""
        first, last = self.forums
        return first <= self.lane[number] < last

    def name(self, number: int) -> str:
        kind = self.kind[number]
        return INSERTS[kind] if kind < READ else f"IC{kind - READ}"

    def asked(self, number: int) -> list[int | str]:
        """The parameters of a read."""
        return list(self.params[self.kind[number] - READ][self.at[number]])

    def text(self, number: int) -> str:
        """The line of an insert as its stream has it, or a read with its parameters."""
        if self.is_read(number):
            return f"{self.name(number)} {json_of(self.asked(number))}"
        lane = self.lane[number]
        if lane not in self.files:
            self.files[lane] = open(self.paths[lane], "rb")
        self.files[lane].seek(self.at[number])
        line = self.files[lane].readline()
        return line.removesuffix(b"\n").decode("utf-8", "surrogateescape")

    def where(self, number: int) -> str:
        """The file and the line of an insert; of a read the file of its parameters."""
        if self.is_read(number):
            return f"interactive_{self.kind[number] - READ}_param.txt, query {self.at[number] + 1}"
        return f"{self.paths[self.lane[number]].name}:{self.line[number]}"
