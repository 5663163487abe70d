"""Tests `compare`: each way to differ is told as it is, and each broken line in words.

usage: python3 -m unittest discover tools

The environment variable SNB names another program than the script `snb`.
"""

import json
import unittest

from trying import WALK, Tried, snb, tool

FIRST = '{"cases":1}'
INSERT = '{"insert":"8000|0|1|12|Cy|Fox|male|0|8000|1.1.1.3|Opera|1|||||"}'
ROWS = [[1, "A", "B", 9], [2, "C", "D", 8], [3, "E", "F", 7]]
# Of a copy of these rows: what it has, and by way and by column how often it differs.
WAYS = [
    ([ROWS[0], ROWS[2]], [1, 0, 0], {}, "row 2 is missing: [2,\"C\",\"D\",8]"),
    ([*ROWS, [4, "G", "H", 6]], [0, 1, 0], {}, "row 4 is one too many: [4,\"G\",\"H\",6]"),
    ([ROWS[1], ROWS[0], ROWS[2]], [0, 0, 1], {}, "the rows are in another order: row 1 should be"),
    ([ROWS[0], [2, "C", "X", 8], ROWS[2]], [0, 0, 0], {"lastName": 1}, "row 2, column 3 (lastName)"),
    ([ROWS[2], [2, "C", "D", 5]], [1, 0, 1], {"date": 1}, "row 2, column 4 (date): expected 8, the"),
    ([], [1, 0, 0], {}, "row 3 is missing"),
    ([*ROWS, ROWS[0]], [0, 1, 0], {}, "row 4 is one too many"),
]
# A line of a file of cases, and why it is none.
BROKEN = [
    ("7", "no object but a number: 7"),
    ("{", "no JSON: "),
    ('{"insert":7}', "key insert isn't the line of a stream but a number: 7"),
    ('{"insert":"1|0|9|1"}', "key insert: no insert: '1|0|9|1'"),
    ('{"insert":"1|0|8|10|11"}', "key insert: insert 8 has 3 fields more, and these are UTF-8"),
    ('{"insert":"1|0|8|10|11|x"}', "key insert: no number up to "),
    ('{"params":[1],"read":"IS1"}', "the keys are params, read, and not insert, nor params, read,"),
    ('{"params":[1],"read":"IS8","reply":[[]]}', "key read is none of the fourteen kinds"),
    ('{"params":[],"read":"IS1","reply":[[]]}', "key params: IS1 has 1 parameters, and here is 0"),
    ('{"params":["1"],"read":"IS1","reply":[[]]}', "key params: parameter 1 isn't an id but a text"),
    ('{"params":[1,2.0],"read":"IC2","reply":[[]]}', "key params: parameter 2 isn't a date in"),
    ('{"params":[-1],"read":"IS1","reply":[[]]}', "key params: parameter 1 isn't an id but"),
    ('{"params":[1],"read":"IS3","reply":[]}', "key reply is no array of answers but an array: []"),
    ('{"params":[1],"read":"IS3","reply":[[],[]]}', "key reply has 2 answers, and IS3 has one here"),
    ('{"params":[1,2],"read":"IC2","reply":[[[1,"a","b",1,"c",1]]]}', "key reply has 1 answers, and"),
    ('{"params":[1],"read":"IS3","reply":[7]}', "key reply: answer 1 is no array of rows but a"),
    ('{"params":[1],"read":"IS3","reply":[[7]]}', "key reply: answer 1 (IS3), row 1 is no array"),
    ('{"params":[1],"read":"IS3","reply":[[[1,"a","b"]]]}', "key reply: answer 1 (IS3), row 1 has 3"),
    (
        '{"params":[1],"read":"IS3","reply":[[[1,"a","b","9"]]]}',
        "key reply: answer 1 (IS3), row 1, column 4 (date) isn't a number of 64 bits but a text",
    ),
    (
        '{"params":[1],"read":"IS3","reply":[[[1,"a","b",9.0]]]}',
        "key reply: answer 1 (IS3), row 1, column 4 (date) isn't a number of 64 bits but a number",
    ),
    ('{"params":[1],"read":"IS3","reply":[[[-0,"a","b",9]]]}', "key reply: answer 1 (IS3), row 1,"),
    ('{"params":[1],"read":"IS3","reply":[[[9223372036854775808,"a","b",9]]]}', "key reply: answer"),
    ('{"params":[1],"read":"IS3","reply":[[[1,"\\ud800","b",9]]]}', "no JSON: a text has half of a"),
    ('{"params":[NaN],"read":"IS3","reply":[[]]}', "no JSON: NaN"),
]
ODD = '  {"reply" : [[[1, "a", "\\u0062", 9]]], "read":"IS3", "params":[1]} '


def read(rows: list) -> str:
    return json.dumps({"params": [10], "read": "IS3", "reply": [rows]})


class Ways(Tried):
    def compared(self, expected: list[str], copy: list[str]) -> tuple[int, str]:
        right = self.write("right.cases", FIRST, INSERT, *expected)
        other = self.write("other.cases", FIRST, INSERT, *copy)
        status, printed, told = tool(self.place, "compare", right, other)
        self.assertEqual(told, "")
        return status, printed

    def test_that_equal_replies_are(self) -> None:
        status, printed = self.compared([read(ROWS), ODD], [read(ROWS), ODD.replace(" ", "")])
        self.assertEqual((status, printed.split("\n")[0]), (0, "0 of 2 replies differ"))

    def test_how_each_reply_differs(self) -> None:
        for rows, counts, columns, text in WAYS:
            with self.subTest(rows=rows):
                status, printed = self.compared([read(ROWS)] * 2, [read(ROWS), read(rows)])
                self.assertEqual((status, printed.split("\n")[0]), (1, "1 of 2 replies differ"))
                self.assertIn(f"  {text}", printed)
                self.assertIn("other.cases:4: IS3 [10]\n", printed)
                words = [self.place / "right.cases", self.place / "other.cases", "--json"]
                kind = json.loads(tool(self.place, "compare", *words)[1])["kinds"][0]
                found = [kind[it] for it in ("missing", "too many", "order")]
                self.assertEqual((found, kind["columns"]), (counts, columns))
                self.assertEqual((kind["reads"], kind["differ"]), (2, 1))

    def test_that_the_first_five_are_shown(self) -> None:
        printed = self.compared([read(ROWS)] * 9, [read(ROWS[:2])] * 9)[1]
        self.assertEqual(printed.count("row 3 is missing"), 5)
        self.assertIn("other.cases:7: ", printed)

    def test_that_reads_that_follow_are_compared_on_one_first_row(self) -> None:
        first = [[12, "C", "D", 31, "Yo", 6]]
        after = [[["C", "D", 1, "i", "b", 1, "m", 2]], [], [], [[6, "Yo"]], [[12, "C", "D"]], [], []]
        other = [after[0], [], [], [[6, "Ya"]], after[4], [], []]
        cases = [
            json.dumps({"params": [10, 9], "read": "IC2", "reply": [one, *rest]})
            for one, rest in [(first, after), (first, other), ([[13, "E", "F", 32, "X", 5]], other)]
        ]
        printed = self.compared(cases[:1] * 2, cases[1:])[1]
        self.assertIn("IS4, which follows: row 1, column 2 (shown): expected \"Yo\"", printed)
        self.assertEqual(printed.count("which follows"), 1)


class Words(Tried):
    def test_that_broken_lines_are_said_in_words(self) -> None:
        for line, why in BROKEN:
            with self.subTest(line=line):
                cases = self.write("bad.cases", FIRST, INSERT, "", line)
                good = self.write("good.cases", FIRST, INSERT, ODD)
                told = self.fails("compare", good, cases)
                self.assertTrue(told.startswith(f"{cases}:4: {why}"), told)
                refused = (3, ["refused: cases:4: column 0"])
                self.assertEqual(snb(self.place, "validate", WALK, cases), refused)

    def test_that_odd_lines_are_cases(self) -> None:
        cases = self.write("odd.cases", FIRST, ODD)
        self.assertEqual(tool(self.place, "compare", cases, cases)[0], 0)
        self.assertEqual(snb(self.place, "validate", WALK, cases)[0], 1)

    def test_that_bytes_and_ends_are_said(self) -> None:
        good = self.write("good.cases", FIRST, read(ROWS), INSERT)
        bad = self.place / "bad.cases"
        for given, why in [
            (b"", "bad.cases: no line has a byte"),
            (b'\n{"cases":2}\n', "bad.cases:2: the first line isn't"),
            (b'{"cases":1}\n{"insert":"\xff"}\n', "bad.cases:2: not UTF-8, from byte 12 on"),
            (b'{"cases":1}\n\xef\xbb\xbf{}\n', "bad.cases:2: it begins with a byte order mark"),
            (b'{"cases":1}\n', "bad.cases: it ends before the case of"),
            (b'{"cases":1}\n' + INSERT.encode() + b"\n", "bad.cases:2: it is the insert 8000|"),
        ]:
            bad.write_bytes(given)
            told = self.fails("compare", good, bad)
            self.assertTrue(told.removeprefix(f"{self.place}/").startswith(why), told)
        bad.write_bytes(b'{"cases":1}\n' + b"[" * 100000)
        self.assertIn("too many brackets", self.fails("compare", good, bad))
        self.fails("compare", good)
        self.fails("compare", good, self.place / "none")
        self.assertEqual(tool(self.place, "compare", "--help")[0], 0)


class Program(Tried):
    def test_that_it_finds_what_validate_finds(self) -> None:
        every = "1:4,2:4,7:8,8:8,9:8,11:8,13:4"
        self.assertEqual(snb(self.place, "expect", WALK, "--freq", every), (0, ["cases 18"]))
        lines = self.text("snb.cases").split("\n")[:-1]
        self.assertEqual(tool(self.place, "compare", "snb.cases", "snb.cases")[0], 0)
        reads = [at for at, line in enumerate(lines) if '"read"' in line]
        for at in reads[-4:]:
            case = json.loads(lines[at])
            case["reply"] = [[[-7]]] if case["read"] == "IC13" else [[]]
            changed = [*lines[:at], json.dumps(case), *lines[at + 1 :]]
            copy = self.write("copy.cases", *changed)
            found = snb(self.place, "validate", WALK, copy)[1][0]
            printed = tool(self.place, "compare", "snb.cases", copy)[1]
            self.assertEqual(found, f"differs line {at + 1}")
            self.assertIn(f"{copy}:{at + 1}: {case['read']} ", printed)


if __name__ == "__main__":
    unittest.main()
