"""The plan of a run: the operations of a folder, numbered, with when each is due.

usage: from plan import frequencies, made_of, ratio

The plan is the one of docs/FORMATS.md. The folder is one that `snb check` accepts with the same
frequencies.
"""

import re
from collections.abc import Callable
from dataclasses import dataclass
from itertools import count
from pathlib import Path

from sqlite.fields import MAX_TIME, date, lines, number, text, year

MILLION = 1_000_000
RATIO = re.compile(r"(0|[1-9][0-9]{0,3})(?:\.([0-9]{1,6}))?")
# The fields of a line of parameters, by query.
PARAMETERS: dict[int, tuple[Callable[[str], int | str], ...]] = {
    1: (number, text),
    2: (number, date),
    7: (number,),
    8: (number,),
    9: (number, date),
    11: (number, text, year),
    13: (number, number),
}
PERSON, FORUM = "1", "4"


@dataclass(frozen=True)
class Operation:
    """An insert, which has a line, or a read, which has a kind. Times are milliseconds."""

    number: int
    t: int
    depends: int
    due: int
    lane: int
    place: int
    line: str = ""
    kind: str = ""
    params: tuple[int | str, ...] = ()

    @property
    def insert(self) -> str:
        """The opId of an insert, and nothing of a read."""
        return self.line.split("|", 3)[2] if self.line else ""

    @property
    def is_dependency(self) -> bool:
        return self.insert in (PERSON, FORUM)

    @property
    def is_dependent(self) -> bool:
        return self.insert not in ("", PERSON)


@dataclass(frozen=True)
class Plan:
    operations: list[Operation]
    lanes: list[list[Operation]]
    # The lanes from the first of these to before the second are forum streams.
    forums: tuple[int, int]


@dataclass(frozen=True)
class Step:
    """What becomes an operation once all are in their order."""

    t: int
    lane: int
    place: int
    depends: int = 0
    line: str = ""
    kind: str = ""
    params: tuple[int | str, ...] = ()


def ratio(word: str) -> int:
    """A ratio in millionths."""
    found = RATIO.fullmatch(word)
    if not found:
        raise ValueError(f"no ratio: {word}")
    millionths = int(found[1]) * MILLION + int((found[2] or "").ljust(6, "0"))
    if not 1 <= millionths <= 1000 * MILLION:
        raise ValueError(f"no ratio from 0.000001 to 1000: {word}")
    return millionths


def frequencies(word: str) -> dict[int, int]:
    """After how many updates each query is asked."""
    found: dict[int, int] = {}
    for pair in word.split(",") if word else []:
        query, _, every = pair.partition(":")
        one = number(query)
        if one not in PARAMETERS or one <= max(found, default=0):
            raise ValueError(f"no rising queries of {', '.join(map(str, PARAMETERS))}: {word}")
        found[one] = number(every, MILLION)
        if not found[one]:
            raise ValueError(f"a frequency is 1 at least: {word}")
    return found


def streams(folder: Path, kind: str) -> list[Path]:
    """The streams of a kind, which are counted up to the first that isn't there."""
    found: list[Path] = []
    for lane in count():
        path = folder / f"updateStream_0_{lane}_{kind}.csv"
        if not path.exists():
            break
        found.append(path)
    return found


def updates_of(path: Path, lane: int) -> list[Step]:
    found: list[Step] = []
    for at, line in lines(path):
        fields = line.split("|", 3)
        try:
            moments = [number(it, MAX_TIME) for it in fields[:2]]
            if len(fields) < 4:
                raise ValueError("too few fields")
        except ValueError as wrong:
            raise ValueError(f"{path.name}:{at}: {wrong}") from None
        found.append(Step(moments[0], lane, len(found), moments[1], line))
    return found


def parameters(folder: Path, query: int) -> list[tuple[int | str, ...]]:
    path = folder / f"interactive_{query}_param.txt"
    wanted, found = PARAMETERS[query], []
    following = lines(path)
    next(following, None)  # the header
    for at, line in following:
        fields = line.split("|")
        try:
            if len(fields) != len(wanted):
                raise ValueError(f"{len(fields)} fields, and not {len(wanted)}")
            found.append(tuple(read(field) for read, field in zip(wanted, fields)))
        except ValueError as wrong:
            raise ValueError(f"{path.name}:{at}: {wrong}") from None
    if not found:
        raise ValueError(f"{path.name}: no parameters")
    return found


def reads_of(folder: Path, updates: list[Step], every: dict[int, int], lane: int) -> list[Step]:
    """The reads, each of which goes with an update."""
    given = {query: parameters(folder, query) for query in every}
    found: list[Step] = []
    for index, update in enumerate(updates, 1):
        for query, often in every.items():
            if index % often == 0:
                params = given[query][(index // often - 1) % len(given[query])]
                found.append(Step(update.t, lane, len(found), kind=f"IC{query}", params=params))
    return found


def made_of(folder: Path, millionths: int, every: dict[int, int]) -> Plan:
    """The plan of a folder at a ratio in millionths, with reads after so many updates."""
    persons, forums = streams(folder, "person"), streams(folder, "forum")
    updates = [
        step for lane, path in enumerate(persons + forums) for step in updates_of(path, lane)
    ]
    updates.sort(key=lambda it: (it.t, it.lane, it.place))
    last = len(persons) + len(forums)
    steps = updates + reads_of(folder, updates, every, last)
    steps.sort(key=lambda it: (it.t, it.lane, it.place))
    operations = [
        Operation(
            number=index,
            t=it.t,
            depends=it.depends,
            due=(it.t - steps[0].t) * millionths // MILLION,
            lane=it.lane,
            place=it.place,
            line=it.line,
            kind=it.kind,
            params=it.params,
        )
        for index, it in enumerate(steps)
    ]
    lanes: list[list[Operation]] = [[] for _ in range(last + 1)]
    for operation in operations:
        lanes[operation.lane].append(operation)
    return Plan(operations, lanes, (len(persons), last))
