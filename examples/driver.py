#!/usr/bin/env python3
"""Drives a database by the plan of a folder, and writes a log that `snb audit` judges.

usage: driver.py DIR --workers N [--ratio R] [--freq L] [--log FILE] [--cases FILE]
                 [--database FILE] [--quiet]

Ratio and frequencies are those of `snb run`. The log, `driver.log` where none is given, is of
version 2. The cases, `driver.cases`, have each insert and each read with the database's reply, in
the order in which the database took them, so `snb validate DIR driver.cases` compares the replies.
The database is in memory, or in a file made anew. A line a second on standard error says how far
the run is, unless it is to be quiet. Ends with 0; with 1 where a file couldn't be read or the
database failed, which a line on standard error says; with 2 where the words aren't as above.
"""

import argparse
import json
import sys
from dataclasses import dataclass, field
from pathlib import Path
from threading import Event, RLock, Thread
from typing import Protocol

from book import Book
from plan import Operation, Plan, frequencies, made_of, ratio


class Graph(Protocol):
    """A database behind one lock, which stands still for who holds it."""

    lock: RLock

    def insert(self, line: str) -> None: ...

    def ask(self, kind: str, params: list[int | str]) -> list: ...


@dataclass
class Driver:
    database: Graph
    book: Book
    # Each operation that is done, with where it stands in the order of the database, and its reply.
    taken: list[tuple[tuple[int, int, int], Operation, list]] = field(default_factory=list)
    wrong: list[str] = field(default_factory=list)

    def insert(self, operation: Operation, worker: int) -> None:
        # The Finish is noted before the lock is given back: no read sees the insert without it.
        with self.database.lock:
            self.database.insert(operation.line)
            before = self.book.finish(operation, worker)
        self.taken.append(((before, 0, operation.number), operation, []))

    def read(self, operation: Operation, worker: int) -> None:
        # No insert comes between the front and the reply, since the lock is held.
        with self.database.lock:
            front = self.book.count()
            reply = self.database.ask(operation.kind, list(operation.params))
        self.book.finish(operation, worker, front, len(reply[0]))
        # It saw the Finish of number front - 1, and none after it.
        self.taken.append(((front - 1, 1, operation.number), operation, reply))

    def work(self, worker: int) -> None:
        """Does operations until there are no more, or until the database fails."""
        while operation := self.book.claim(worker):
            try:
                if operation.line:
                    self.insert(operation, worker)
                else:
                    self.read(operation, worker)
            except Exception as wrong:
                self.wrong.append(f"operation {operation.number}: {wrong}")
                self.book.halt(worker)

    def run(self, workers: int) -> None:
        threads = [
            Thread(target=self.work, args=(worker,), daemon=True) for worker in range(workers)
        ]
        for thread in threads:
            thread.start()
        for thread in threads:
            thread.join()

    def cases(self) -> str:
        """A file of cases with the replies, in the order in which the database took them."""
        found: list[dict] = [{"cases": 1}]
        for _, operation, reply in sorted(self.taken, key=lambda it: it[0]):
            if operation.line:
                found.append({"insert": operation.line})
            else:
                params = list(operation.params)
                found.append({"params": params, "read": operation.kind, "reply": reply})
        shown = (json.dumps(it, ensure_ascii=False, separators=(",", ":")) for it in found)
        return "".join(f"{it}\n" for it in shown)


def tell(book: Book, done: Event) -> None:
    """A line a second: operations done of all, how late the last one started, how many a second."""
    all_of, before, over = len(book.plan.operations), 0, False
    while not over:
        over = done.wait(1)
        now = len(book.finished)
        rate = f"{now - before} in this second" if not over else f"{book.now()} ms"
        print(f"{now} of {all_of} operations, {book.late} ms late, {rate}", file=sys.stderr)
        before = now


def drive(driver: Driver, workers: int, quiet: bool) -> None:
    done = Event()
    teller = Thread(target=tell, args=(driver.book, done))
    if not quiet:
        teller.start()
    try:
        driver.run(workers)
    finally:
        done.set()
        if not quiet:
            teller.join()


def write(path: Path, text: str) -> None:
    with open(path, "w", encoding="utf-8", newline="\n") as file:
        file.write(text)


def summary(plan: Plan) -> str:
    updates = sum(1 for it in plan.operations if it.line)
    count = len(plan.operations)
    return f"operations {count}\nupdates {updates}\nreads {count - updates}"


def words() -> argparse.ArgumentParser:
    parser = argparse.ArgumentParser(
        description=__doc__, formatter_class=argparse.RawDescriptionHelpFormatter
    )
    parser.add_argument("folder", metavar="DIR", type=Path)
    parser.add_argument("--workers", type=int, choices=range(1, 9), required=True)
    parser.add_argument("--ratio", type=ratio, default="1")
    parser.add_argument("--freq", type=frequencies, default="")
    parser.add_argument("--log", type=Path, default="driver.log")
    parser.add_argument("--cases", type=Path, default="driver.cases")
    parser.add_argument("--database", type=Path)
    parser.add_argument("--quiet", action="store_true")
    return parser


def main(given: argparse.Namespace) -> int:
    try:
        # Here, so that a Python without `sqlite3` says so in a line.
        from sqlite.database import Database

        plan = made_of(given.folder, given.ratio, given.freq)
        database = Database(given.folder, given.database)
        # The run begins now, once all is loaded.
        driver = Driver(database, Book(plan, given.workers))
        drive(driver, given.workers, given.quiet)
        write(given.log, driver.book.text())
        write(given.cases, driver.cases())
    except (OSError, ValueError, ImportError) as wrong:
        print(f"driver.py: {wrong}", file=sys.stderr)
        return 1
    for wrong in driver.wrong[:1]:
        print(f"driver.py: {wrong}", file=sys.stderr)
        return 1
    print(summary(plan))
    return 0


if __name__ == "__main__":
    sys.exit(main(words().parse_args()))
