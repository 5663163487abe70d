"""Tests the plan and the driver: `snb audit` accepts its logs, and finds what broken drivers do.

usage: python3 -m unittest discover examples

The environment variable SNB names another program than the script `snb`.
"""

import json
import unittest
from pathlib import Path
from time import sleep

from book import Book
from driver import Driver, write
from plan import Operation, frequencies, made_of, ratio
from sqlite.database import Database
from support import ALL, EACH, WALK, InAFolder, made, script, snb

AT_ONCE = "0.000001"


class Slow(Database):
    """A database that takes its time for an insert."""

    def insert(self, line: str) -> None:
        sleep(0.05)
        super().insert(line)


class Forgetful(Database):
    """A database that loses the inserts of friendships."""

    def insert(self, line: str) -> None:
        if line.split("|")[2] != "8":
            super().insert(line)


class Failing(Database):
    """A database that fails at the first insert of a comment."""

    def insert(self, line: str) -> None:
        if line.split("|")[2] == "7":
            raise ValueError("out of order")
        super().insert(line)


class Hasty(Book):
    """A book that doesn't look at dependencies."""

    def is_met(self, operation: Operation) -> bool:
        return True


class Early(Book):
    """A book that doesn't look at the clock."""

    def is_due(self, operation: Operation, at: int) -> bool:
        return True


class SmallFront(Driver):
    """A driver that notes as its front how many events there were before its Start."""

    def read(self, operation: Operation, worker: int) -> None:
        head = f"S|{operation.number}|"
        start = [it.startswith(head) for it in self.book.events].index(True)
        reply = self.database.ask(operation.kind, list(operation.params))
        self.book.finish(operation, worker, start, len(reply[0]))


class WrongCount(Driver):
    """A driver that counts a row too many of the last read."""

    def read(self, operation: Operation, worker: int) -> None:
        reply = self.database.ask(operation.kind, list(operation.params))
        last = operation is self.book.plan.operations[-1]
        self.book.finish(operation, worker, self.book.count(), len(reply[0]) + last)


class Loose(Driver):
    """A driver that notes the Finish of a comment when the database has let others in again."""

    def insert(self, operation: Operation, worker: int) -> None:
        self.database.insert(operation.line)
        if operation.insert == "7":
            sleep(0.5)
        self.book.finish(operation, worker)

    def read(self, operation: Operation, worker: int) -> None:
        sleep(0.02)
        super().read(operation, worker)


class Plans(InAFolder):
    def test_that_operations_are_those_of_expect(self) -> None:
        small = made(self.place, 400, 300)
        for folder, every in [(WALK, EACH), (WALK, "2:3,13:2"), (small, EACH)]:
            snb(self.place, "expect", folder, "--freq", every)
            wanted = [json.loads(it) for it in self.text("snb.cases").split("\n")[1:] if it]
            plan = made_of(folder, ratio("1"), frequencies(every))
            kinds = [(it.kind, list(it.params)) for it in plan.operations]
            self.assertEqual(kinds, [(it.get("read", ""), it.get("params", [])) for it in wanted])
            heads = [it.line.split("|")[:4] for it in plan.operations if it.line]
            lines = [it["insert"] for it in wanted if "insert" in it]
            self.assertEqual(heads, [it.split("|")[:4] for it in lines])

    def test_when_operations_are_due(self) -> None:
        plan = made_of(WALK, ratio(AT_ONCE), {})
        self.assertEqual([it.due for it in plan.operations], [0] * 8)
        plan = made_of(WALK, ratio("0.00015"), {})
        self.assertEqual([it.due for it in plan.operations], [0, 1, 3, 4, 6, 7, 9, 13])

    def test_ratios_and_frequencies(self) -> None:
        found = [ratio(it) for it in ["1", "0.01", "1000", AT_ONCE]]
        self.assertEqual(found, [10**6, 10**4, 10**9, 1])
        for word in ["", "0", "01", "1.", "0.0000001", "1000.000001", "-1", "1e3", "\u0661"]:
            self.assertRaises(ValueError, ratio, word)
        self.assertEqual(frequencies("1:2,13:1"), {1: 2, 13: 1})
        for word in ["1", "1:0", "3:1", "2:1,1:1", "1:1,1:1", "1:1,", "1:1000001"]:
            self.assertRaises(ValueError, frequencies, word)


class Runs(InAFolder):
    def drive(
        self,
        database: Database,
        workers: int,
        word: str,
        every: str = EACH,
        kind: type[Driver] = Driver,
        book: type[Book] = Book,
    ) -> list[str]:
        """What `audit` prints of a run over the folder `walk`."""
        driver = kind(database, book(made_of(WALK, ratio(word), frequencies(every)), workers))
        driver.run(workers)
        database.close()
        write(self.place / "driver.log", driver.book.text())
        write(self.place / "driver.cases", driver.cases())
        options = ["--ratio", word, "--freq", every]
        return snb(self.place, "audit", WALK, "driver.log", *options)[1]

    def accepted(self, folder: Path, workers: int, every: str, ratios: list[str]) -> str:
        """Drives a folder at the first of the ratios at which it isn't late, and gives that."""
        for word in ratios:
            options = ["--ratio", word, "--freq", every]
            more = ["--workers", str(workers), *options]
            status, printed, told = script(self.place, "driver.py", folder, *more)
            counts = dict(it.split(" ") for it in printed.split("\n") if it)
            done = counts["operations"]
            self.assertEqual(status, 0)
            self.assertRegex(told, rf"\A(\d+ of {done} operations, \d+ ms late, .*\n)+\Z")
            status, verdict = snb(self.place, "audit", folder, "driver.log", *options)
            if status == 0 or not verdict[0].startswith("late "):
                break
        self.assertEqual((status, verdict[0].split(" ")[::3]), (0, ["accepted", done]))
        valid = snb(self.place, "validate", folder, "driver.cases")
        self.assertEqual(valid, (0, [f"valid {counts['reads']}"]))
        return word

    def test_that_runs_over_walk_are_accepted(self) -> None:
        for workers in [1, 4, 8]:
            self.accepted(WALK, workers, ALL, ["0.01", "0.1"])

    def test_that_one_worker_gives_the_replies_of_the_cases(self) -> None:
        self.drive(Database(WALK), 1, AT_ONCE)
        snb(self.place, "expect", WALK, "--freq", EACH)
        wanted = [json.loads(it) for it in self.text("snb.cases").split("\n") if it]
        found = [json.loads(it) for it in self.text("driver.cases").split("\n") if it]
        self.assertEqual(*([it for it in all_of if "read" in it] for all_of in (found, wanted)))

    def test_that_runs_over_ten_thousand_rows_are_accepted(self) -> None:
        folder = made(self.place, 10000, 1000)
        every = EACH.replace(":1", ":10")
        for workers in [1, 4]:
            word = self.accepted(folder, workers, every, ["0.0002", "0.001", "0.004"])
            words = ["latency", folder, "driver.log", "--ratio", word, "--freq", every]
            status, latencies = snb(self.place, *words)
            kinds = {it.split("|")[0] for it in latencies[1:]}
            self.assertEqual((status, latencies[0], len(kinds)), (0, "summary|1", 15))

    def test_that_a_dependency_that_is_not_awaited_is_found(self) -> None:
        # With few reads, so that a worker is free while the first person is inserted.
        right = self.drive(Slow(WALK), 8, AT_ONCE, "13:8")
        self.assertRegex(right[0], r"\A(accepted|late) \d of 9\Z")
        found = self.drive(Slow(WALK), 8, AT_ONCE, "13:8", book=Hasty)
        self.assertRegex(found[0], r"\Aviolated event \d+ rule V5 needs 8000 found 7999\Z")

    def test_that_an_early_start_is_found(self) -> None:
        found = self.drive(Database(WALK), 1, "1", book=Early)
        self.assertRegex(found[0], r"\Aviolated event \d+ rule V4 needs 10000 found \d+\Z")

    def test_that_a_small_front_is_found(self) -> None:
        found = self.drive(Database(WALK), 2, AT_ONCE, kind=SmallFront)
        self.assertRegex(found[0], r"\Aviolated event \d+ rule V8 needs \d+ found \d+\Z")

    def test_that_a_wrong_count_is_found(self) -> None:
        found = self.drive(Database(WALK), 1, AT_ONCE, kind=WrongCount)
        self.assertEqual(found, ["miscounted event 127 needs 1 found 2"])

    def test_that_a_front_from_outside_the_lock_is_found(self) -> None:
        found = self.drive(Database(WALK), 4, AT_ONCE, kind=Loose)
        self.assertRegex(found[0], r"\Amiscounted event ")

    def test_that_frequencies_that_are_forgotten_are_found(self) -> None:
        self.drive(Database(WALK), 1, AT_ONCE)
        found = snb(self.place, "audit", WALK, "driver.log", "--ratio", AT_ONCE)
        self.assertEqual(found, (1, ["mismatched operations needs 8 found 64"]))

    def test_that_an_audit_accepts_a_lost_insert_and_validate_finds_it(self) -> None:
        # A read of query 13 has one row, whatever friendships there are.
        lost = self.drive(Forgetful(WALK), 1, AT_ONCE, "13:4")
        self.assertRegex(lost[0], r"\A(accepted|late) \d+ of 10\Z")
        found = snb(self.place, "validate", WALK, "driver.cases")
        wanted = ["differs line 6", "expected [[[-1]]]", "given [[[2]]]"]
        self.assertEqual(found, (1, wanted))

    def test_that_a_database_in_a_file_is_driven(self) -> None:
        options = ["--ratio", AT_ONCE, "--freq", "13:4"]
        more = ["--workers", "2", "--quiet", "--database", "made.db", "--log", "x.log", *options]
        self.assertEqual(script(self.place, "driver.py", WALK, *more)[0], 0)
        self.assertTrue((self.place / "made.db").exists())
        audit = snb(self.place, "audit", WALK, "x.log", *options)[1]
        self.assertRegex(audit[0], r"\A(accepted|late) \d+ of 10\Z")

    def test_that_a_database_that_fails_ends_the_run(self) -> None:
        found = self.drive(Failing(WALK), 1, AT_ONCE)
        self.assertEqual(found, ["halted worker 0"])

    def test_that_wrong_words_and_files_are_said(self) -> None:
        for words, wanted in [
            ([WALK], 2),
            ([WALK, "--workers", "9"], 2),
            ([WALK, "--workers", "1", "--ratio", "0"], 2),
            ([WALK, "--workers", "1", "--freq", "3:1"], 2),
            ([self.place, "--workers", "1"], 1),
        ]:
            status, printed, told = script(self.place, "driver.py", *words)
            self.assertEqual((status, printed), (wanted, ""))
            self.assertNotIn("Traceback", told)


if __name__ == "__main__":
    unittest.main()
