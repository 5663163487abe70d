"""How two replies to one read differ: rows that are missing, too many, in another order, a column.

usage: from differences import ways_of

It is not proved.
"""

from collections import Counter
from typing import NamedTuple

from casefile import COLUMNS, FOLLOWING, names_of
from shared import json_of

# The columns, from 0, by which a row is known; where there are none an answer has one row at most.
KEYS: dict[str, tuple[int, ...]] = dict.fromkeys(["IS2", "IS3", "IS7", "IC1", "IC7"], (0,)) | {
    "IC2": (3,),
    "IC9": (3,),
    "IC8": (4,),
    "IC11": (0, 3),
}
MISSING, MORE, ORDER, COLUMN = "missing", "too many", "order", "column"


class Way(NamedTuple):
    """One difference: of which answer, what is different, the name of a column, and it in words."""

    answer: str
    what: str
    column: str
    text: str


def key_of(kind: str, row: list) -> str:
    return json_of([row[at] for at in KEYS.get(kind, ())])


def placed(rows: list, kind: str) -> dict[str, list[tuple[int, list]]]:
    """The rows by their key, with their places from 1."""
    found: dict[str, list[tuple[int, list]]] = {}
    for at, row in enumerate(rows, 1):
        found.setdefault(key_of(kind, row), []).append((at, row))
    return found


def columns(kind: str, wanted: tuple[int, list], given: tuple[int, list]) -> list[Way]:
    """The cells in which two rows of one key differ."""
    found = []
    for at, ((name, _), one, other) in enumerate(zip(COLUMNS[kind], wanted[1], given[1]), 1):
        if json_of(one) != json_of(other):
            text = f"row {given[0]}, column {at} ({name}): expected {json_of(one)}"
            found.append(Way(kind, COLUMN, name, f"{text}, the copy has {json_of(other)}"))
    return found


def paired(wanted: list, given: list) -> tuple[list, list, list]:
    """Rows of one key in pairs, equal ones first, and those that are left on either side."""
    texts = Counter(json_of(row) for _, row in given)
    left = []
    for at, row in wanted:
        if texts[json_of(row)]:
            texts[json_of(row)] -= 1
        else:
            left.append((at, row))
    others = Counter(json_of(row) for _, row in wanted)
    more = []
    for at, row in given:
        if others[json_of(row)]:
            others[json_of(row)] -= 1
        else:
            more.append((at, row))
    count = min(len(left), len(more))
    return list(zip(left, more)), left[count:], more[count:]


def ways_of_answer(kind: str, wanted: list, given: list) -> list[Way]:
    if json_of(wanted) == json_of(given):
        return []
    by_key, others = placed(wanted, kind), placed(given, kind)
    found = []
    for key in [*by_key, *(it for it in others if it not in by_key)]:
        pairs, left, more = paired(by_key.get(key, []), others.get(key, []))
        for one, other in pairs:
            found += columns(kind, one, other)
        for at, row in left:
            found.append(Way(kind, MISSING, "", f"row {at} is missing: {json_of(row)}"))
        for at, row in more:
            found.append(Way(kind, MORE, "", f"row {at} is one too many: {json_of(row)}"))
    common = [it for row in wanted if (it := key_of(kind, row)) in others]
    there = [it for row in given if (it := key_of(kind, row)) in by_key]
    if common != there and Counter(common) == Counter(there) or not found:
        found.append(Way(kind, ORDER, "", another_order(kind, wanted, given)))
    return found


def another_order(kind: str, wanted: list, given: list) -> str:
    pairs = enumerate(zip(wanted, given), 1)
    first = next((it for it in pairs if key_of(kind, it[1][0]) != key_of(kind, it[1][1])), None)
    if first is None:
        return "the rows are in another order"
    at, (one, other) = first
    shown = f"row {at} should be {json_of(one)}, and is {json_of(other)}"
    return f"the rows are in another order: {shown}"


def ways_of(kind: str, wanted: list, given: list) -> list[Way]:
    """How a reply differs. Reads that follow on another first row aren't compared."""
    found = ways_of_answer(kind, wanted[0], given[0])
    firsts = [json_of(key_of(kind, answer[0])) if answer else "" for answer in (wanted[0], given[0])]
    if kind in FOLLOWING and firsts[0] == firsts[1]:
        names = names_of(kind, wanted[0])
        for name, one, other in list(zip(names, wanted, given))[1:]:
            found += ways_of_answer(name, one, other)
    return found
