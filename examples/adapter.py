#!/usr/bin/env python3
"""Asks a database the reads of a file of cases, and writes a copy with what the database answered.

usage: adapter.py DIR CASES COPY

The database here is the one of `sqlite/database.py`, over the dataset in DIR. Any class with the
two calls of `Graph`, below, can stand in its place. Ends with 0; with 1 where a file or a line
can't be read or applied, which a line on standard error says, and then COPY isn't written; with 2
where the words aren't as above.
"""

import json
import os
import sys
from collections.abc import Iterator
from pathlib import Path
from typing import Protocol

from sqlite.fields import lines


class Graph(Protocol):
    def insert(self, line: str) -> None:
        """Applies an insert, a line of an update stream. Raises ValueError where it can't."""

    def ask(self, kind: str, params: list[int | str]) -> list:
        """The reply to a read: its own answer, and then those of the short reads that follow.

        Raises ValueError where there is no such read.
        """


def is_read(kind: object, params: object) -> bool:
    return isinstance(kind, str) and isinstance(params, list)


def answered(database: Graph, line: str) -> str:
    """A line of a file of cases, with the reply of the database where it is a read."""
    case = json.loads(line)
    if not isinstance(case, dict):
        raise ValueError("no object")
    if set(case) == {"insert"} and isinstance(case["insert"], str):
        database.insert(case["insert"])
    elif set(case) == {"params", "read", "reply"} and is_read(case["read"], case["params"]):
        case["reply"] = database.ask(case["read"], case["params"])
    else:
        raise ValueError(f"no case: {', '.join(case)}")
    return json.dumps(case, ensure_ascii=False, separators=(",", ":"))


def answers(database: Graph, cases: Path) -> Iterator[str]:
    """The lines of the copy."""
    given, number = lines(cases), 1
    try:
        number, line = next(given, (1, "{}"))
        if json.loads(line) != {"cases": 1}:
            raise ValueError('the first line isn\'t {"cases":1}')
        yield line
        for number, line in given:
            yield answered(database, line)
    except (ValueError, RecursionError) as wrong:
        raise ValueError(f"{cases.name}:{number}: {wrong}") from None


def copy(database: Graph, cases: Path, target: Path) -> None:
    """Writes the copy, or raises ValueError with the number of the line that is wrong first."""
    beside = target.with_name(target.name + ".part")
    try:
        with open(beside, "w", encoding="utf-8", newline="\n") as file:
            for line in answers(database, cases):
                file.write(line + "\n")
        os.replace(beside, target)
    finally:
        beside.unlink(missing_ok=True)


def main(words: list[str]) -> int:
    if len(words) != 3:
        print("usage: adapter.py DIR CASES COPY", file=sys.stderr)
        return 2
    folder, cases, target = map(Path, words)
    try:
        # Here, so that a Python without `sqlite3` says so in a line.
        from sqlite.database import Database

        copy(Database(folder), cases, target)
    except (OSError, ValueError, ImportError) as wrong:
        print(f"adapter.py: {wrong}", file=sys.stderr)
        return 1
    return 0


if __name__ == "__main__":
    sys.exit(main(sys.argv[1:]))
