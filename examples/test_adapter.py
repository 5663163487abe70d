"""Tests the adapter over `sqlite3`: `snb validate` accepts its copies, and finds a broken database.

usage: python3 -m unittest discover examples

The environment variable SNB names another program than the script `snb`.
"""

import json
import sqlite3
import unittest
from pathlib import Path

import adapter
from sqlite.database import Database
from support import EACH, WALK, InAFolder, made, script, snb

FIRST = '{"cases":1}'
# Two friends of person 10 write at one date, and the greater friend has the lower message.
TIES = [
    FIRST,
    '{"insert":"1|0|1|12|Cy|Fox|m|0|1|ip|br|0|||||"}',
    '{"insert":"1|0|8|10|12|5"}',
    '{"insert":"1|0|7|51|9000|ip|br|x|1|11|0|30|-1|"}',
    '{"insert":"1|0|7|50|9000|ip|br|y|1|12|0|30|-1|"}',
    '{"params":[10,9000],"read":"IC2","reply":[]}',
]


class Untied(Database):
    """A database with a query that lacks its tie-break."""

    def __init__(self, folder: Path) -> None:
        super().__init__(folder)
        tied = "ORDER BY message.date DESC, message.id"
        self.reads["IC2"] = self.reads["IC2"].replace(tied, "ORDER BY message.date DESC")


class Forgetful(Database):
    """A database that loses the insert of one friendship."""

    lost = 0

    def insert(self, line: str) -> None:
        if line.split("|")[2] == "8" and not self.lost:
            self.lost = 1
        else:
            super().insert(line)


class Adapter(InAFolder):
    def copied(self, database: Database, cases: Path) -> Path:
        copy = self.place / "copy.cases"
        adapter.copy(database, cases, copy)
        database.close()
        return copy

    def test_that_the_replies_over_walk_are_those_due(self) -> None:
        self.assertEqual(snb(self.place, "expect", WALK, "--freq", EACH), (0, ["cases 64"]))
        done = script(self.place, "adapter.py", WALK, "snb.cases", "copy.cases")
        self.assertEqual(done, (0, "", ""))
        self.assertEqual(self.text("copy.cases"), self.text("snb.cases"))
        self.assertEqual(snb(self.place, "validate", WALK, "copy.cases"), (0, ["valid 56"]))

    def test_that_the_replies_over_ten_thousand_rows_are_those_due(self) -> None:
        folder = made(self.place, 10000, 1000)
        every = EACH.replace(":1", ":10")
        status, printed = snb(self.place, "expect", folder, "--freq", every)
        self.assertEqual(status, 0, printed)
        done = script(self.place, "adapter.py", folder, "snb.cases", "copy.cases")
        self.assertEqual(done, (0, "", ""))
        reads = self.text("copy.cases").count('"read"')
        self.assertGreater(reads, 600)
        self.assertEqual(snb(self.place, "validate", folder, "copy.cases"), (0, [f"valid {reads}"]))

    def test_that_bytes_stay_as_they_are(self) -> None:
        odd = "\r\u2028\x85\"'\\\x00\x0b\U0001f600"
        line = f"1|0|1|{2**63 - 1}|{odd}|{odd}|m|0|1|\r|br|0|{odd};b|{odd};b|||"
        given = [{"insert": line}, {"insert": f"1|0|8|10|{2**63 - 1}|5"}]
        given += [{"params": [10, odd], "read": "IC1", "reply": []}]
        texts = [json.dumps(it, ensure_ascii=False) for it in given]
        cases = self.write("odd.cases", FIRST, *texts)
        self.assertEqual(script(self.place, "adapter.py", WALK, cases, "copy.cases"), (0, "", ""))
        row = json.loads(self.text("copy.cases").split("\n")[3])["reply"][0][0]
        self.assertEqual((row[0], row[1], row[8]), (2**63 - 1, odd, sorted([odd, "b"])))
        self.assertEqual(snb(self.place, "validate", WALK, "copy.cases"), (0, ["valid 1"]))

    def test_that_a_missing_tie_break_is_found(self) -> None:
        cases = self.write("ties.cases", *TIES)
        right = self.copied(Database(WALK), cases)
        self.assertEqual(snb(self.place, "validate", WALK, right), (0, ["valid 1"]))
        status, printed = snb(self.place, "validate", WALK, self.copied(Untied(WALK), cases))
        self.assertEqual((status, printed[0]), (1, "differs line 6"))

    def test_that_a_lost_insert_is_found(self) -> None:
        snb(self.place, "expect", WALK, "--freq", EACH)
        copy = self.copied(Forgetful(WALK), self.place / "snb.cases")
        status, printed = snb(self.place, "validate", WALK, copy)
        self.assertEqual((status, printed[0][:13]), (1, "differs line "))

    def test_that_what_cannot_be_read_is_said_with_its_line(self) -> None:
        insert = '{"insert":"1|0|8|10|11|5"}'
        for lines, why in [
            ([FIRST], None),
            ([], "1: the first line"),
            (["", insert, FIRST], "2: the first line"),
            ([FIRST, "", '{"params":[1],"read":"IS8","reply":[]}'], "3: no such read: IS8"),
            ([FIRST, '{"params":[1],"read":["IS1"],"reply":[]}'], "2: no case"),
            ([FIRST, '{"params":["\\ud800"],"read":"IS1","reply":[]}'], "2: "),
            ([FIRST, '{"params":[1,"\\ud800"],"read":"IC1","reply":[]}'], "2: "),
            ([FIRST, '{"insert":"1|0|1|5|\\ud800|b|m|0|1|i|b|0|||||"}'], "2: "),
            ([FIRST, "[" * 100000], "2: "),
            ([FIRST, "7"], "2: no object"),
            ([FIRST, '{"insert":7}'], "2: no case"),
            ([FIRST, '{"insert":"1|0|9"}'], "2: no insert"),
            ([FIRST, insert], "2: UNIQUE"),
            ([FIRST, '{"insert":"1|0|8|10|99|5"}'], "2: FOREIGN KEY"),
        ]:
            with self.subTest(lines=[it[:50] for it in lines]):
                cases = self.write("bad.cases", *lines)
                status, printed, told = script(self.place, "adapter.py", WALK, cases, "copy.cases")
                self.assertEqual((status, printed), (0 if why is None else 1, ""))
                wanted = "" if why is None else f"adapter.py: bad.cases:{why}"
                self.assertTrue(told.startswith(wanted) and told.count("\n") == bool(why), told)
                self.assertEqual((self.place / "copy.cases").exists(), why is None)
                (self.place / "copy.cases").unlink(missing_ok=True)

    def test_that_wrong_words_and_files_are_said(self) -> None:
        self.assertEqual(script(self.place, "adapter.py", WALK)[0], 2)
        for words in [(WALK, "none", "copy"), (self.place, "none", "copy")]:
            status, _, told = script(self.place, "adapter.py", *words)
            self.assertEqual((status, told.count("\n")), (1, 1))

    def test_that_this_sqlite_can_do_it(self) -> None:
        self.assertGreaterEqual(sqlite3.sqlite_version_info, (3, 25))


if __name__ == "__main__":
    unittest.main()
