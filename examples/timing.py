#!/usr/bin/env python3
"""Times the database over `sqlite3` beside `snb`: loading, inserts and each kind of read.

usage: timing.py DIR [--program FILE] [--reads N] [--seed S]

Prints a table of processor time, in microseconds for each. That of SQLite is measured from inside,
and that of the program, where one is given, is what `snb validate` takes for a file of cases beyond
what it takes for one without cases. Both answer the same reads with the short reads that follow, of
parameters drawn by the seed, and the program compares the replies. Each time is the least of three,
but that of SQLite's inserts, which can't be repeated.
"""

import argparse
import json
import os
import random
import subprocess
import sys
import tempfile
from pathlib import Path
from time import process_time

from plan import made_of
from sqlite.database import KINDS, OF_A_MESSAGE, Database
from sqlite.tables import TABLES, rows

FIRST = {"cases": 1}


def values(database: Database, query: str) -> list[int | str]:
    return [value for (value,) in database.made.execute(query)]


class Drawn:
    """Parameters of reads, drawn by a seed from what a database has."""

    def __init__(self, database: Database, seed: int) -> None:
        self.random = random.Random(seed)
        self.persons = values(database, "SELECT id FROM person")
        self.messages = values(database, "SELECT id FROM message")
        self.names = values(database, "SELECT DISTINCT firstName FROM person ORDER BY 1")
        self.places = values(database, "SELECT name FROM place WHERE kind = 'country'")
        self.dates = values(database, "SELECT date FROM message")

    def one(self, kind: str) -> list[int | str]:
        second = {
            "IC1": self.names,
            "IC2": self.dates,
            "IC9": self.dates,
            "IC11": self.places,
            "IC13": self.persons,
        }
        first = self.messages if kind in OF_A_MESSAGE else self.persons
        chosen = [first, second[kind]] if kind in second else [first]
        drawn = [self.random.choice(it) for it in chosen]
        return [*drawn, self.random.randint(1990, 2013)] if kind == "IC11" else drawn


def seconds_of(program: Path, folder: Path, cases: list[dict]) -> float:
    """The processor time of `snb validate`, which finds all replies right."""
    with tempfile.TemporaryDirectory() as place:
        path = Path(place) / "timed.cases"
        with open(path, "w", encoding="utf-8", newline="\n") as file:
            file.write("".join(f"{json.dumps(it, ensure_ascii=False)}\n" for it in cases))
        least = float("inf")
        for _ in range(3):
            before = os.times()
            words = [program.resolve(), "validate", folder.resolve(), path]
            done = subprocess.run(words, cwd=place, stdin=subprocess.DEVNULL, capture_output=True)
            after = os.times()
            if done.returncode:
                raise ValueError(done.stdout.decode("utf-8").split("\n")[0])
            spent = after.children_user + after.children_system
            least = min(least, spent - before.children_user - before.children_system)
    return least


def loaded(folder: Path) -> tuple[float, Database]:
    least = float("inf")
    for turn in range(3):
        before = process_time()
        database = Database(folder)
        least = min(least, process_time() - before)
        if turn < 2:
            database.close()
    return least, database


def asked(database: Database, kind: str, params: list[list[int | str]]) -> tuple[float, list[dict]]:
    least = float("inf")
    for _ in range(3):
        before = process_time()
        replies = [database.ask(kind, it) for it in params]
        least = min(least, process_time() - before)
    pairs = zip(params, replies)
    return least, [{"params": it, "read": kind, "reply": reply} for it, reply in pairs]


def inserted(database: Database, folder: Path) -> tuple[float, list[dict]]:
    """Once: an insert can't be repeated."""
    given = [it.line for it in made_of(folder, 1, {}).operations]
    before = process_time()
    for line in given:
        database.insert(line)
    return process_time() - before, [{"insert": it} for it in given]


def show(what: str, count: int, sqlite: float, beside: float | None) -> None:
    other = "" if beside is None else f" {beside / count * 1e6:.1f} |"
    print(f"| {what} | {count} | {sqlite / count * 1e6:.1f} |{other}", flush=True)


def main(given: argparse.Namespace) -> int:
    folder, program = given.folder, given.program
    try:
        load, database = loaded(folder)
        base = seconds_of(program, folder, [FIRST]) if program else None
        column = " snb |" if program else ""
        print(f"| what | how many | sqlite3 |{column}\n|---|---|---|{'---|' if program else ''}")
        count = sum(1 for table in TABLES for _ in rows(folder, table))
        show("loading, a row", count, load, base)
        drawn = Drawn(database, given.seed)
        for kind in sorted(KINDS, key=lambda it: (it[:2] != "IS", int(it[2:]))):
            spent, cases = asked(database, kind, [drawn.one(kind) for _ in range(given.reads)])
            beside = seconds_of(program, folder, [FIRST, *cases]) - base if base else None
            show(kind, given.reads, spent, beside)
        spent, cases = inserted(database, folder)
        beside = seconds_of(program, folder, [FIRST, *cases]) - base if base else None
        show("an insert", len(cases), spent, beside)
    except (OSError, ValueError) as wrong:
        print(f"timing.py: {wrong}", file=sys.stderr)
        return 1
    return 0


def words() -> argparse.ArgumentParser:
    parser = argparse.ArgumentParser(
        description=__doc__, formatter_class=argparse.RawDescriptionHelpFormatter
    )
    parser.add_argument("folder", metavar="DIR", type=Path)
    parser.add_argument("--program", type=Path)
    parser.add_argument("--reads", type=int, default=1000)
    parser.add_argument("--seed", type=int, default=1)
    return parser


if __name__ == "__main__":
    sys.exit(main(words().parse_args()))
