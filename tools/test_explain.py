"""Tests `explain`: what each verdict of an audit means, over a log that is changed for each.

usage: python3 -m unittest discover tools

The environment variable SNB names another program than the script `snb`.
"""

import json
import unittest
from collections.abc import Callable

from history import events
from plan import frequencies, made_of, ratio
from schedule import Schedule
from support import EACH, made
from trying import ACCEPTED, HERE, RUN, WALK, Tried, snb, tool

# A line of the accepted log stands two after the number of its event.
Change = Callable[[list[str]], list[str]]


def at(event: int, *lines: str) -> Change:
    """Other lines in the place of an event's."""
    return lambda log: [*log[: event + 1], *lines, *log[event + 2 :]]


def before(event: int, *lines: str) -> Change:
    return lambda log: [*log[: event + 1], *lines, *log[event + 1 :]]


def cut(event: int, *lines: str) -> Change:
    return lambda log: [*log[: event + 1], *lines]


# What is changed, what `audit` says, and what `explain` says of it beside.
BROKEN: list[tuple[Change, str, list[str]]] = [
    (
        at(2, "S|10|0|100"),
        "violated event 2 rule V1 needs 10 found 10",
        ["log:4: S|10|0|100", "operation 10 isn't one of the plan, which has 0 to 9"],
    ),
    (
        at(2, "S|1|2|100"),
        "violated event 2 rule V1 needs 2 found 2",
        ["operation 1 (AddFriend): t 18000, t_d 8000, lane 0, due at 100 ms", "worker 2 isn't one of"],
    ),
    (
        before(2, "H|0"),
        "violated event 3 rule V1 needs 0 found 0",
        ["worker 0 had halted at event 2"],
    ),
    (
        before(2, "S|0|1|99"),
        "violated event 2 rule V2 needs -1 found 0",
        ["it was started before: started at event 0 by worker 0 at 2 ms"],
    ),
    (
        at(2, "S|3|0|300"),
        "violated event 2 rule V2 needs 2 found 3",
        ["operation 2 (AddPerson): t 28000,", "it started at event 4 by worker 1 at 200 ms"],
    ),
    (
        before(11, "S|6|1|500"),
        "violated event 11 rule V3 needs 5 found 6",
        ["updateStream_0_0_forum.csv:1: 48000|", "it started at event 10 by worker 0 at 400 ms, finished at event 12 at 403 ms"],
    ),
    (
        at(2, "S|1|0|99"),
        "violated event 2 rule V4 needs 100 found 99",
        ["it started at 99 ms, 1 ms before it was due at 100 ms"],
    ),
    (
        before(5, "S|3|0|300"),
        "violated event 5 rule V5 needs 28000 found 27999",
        [
            "it waits for the persons and forums up to t_d 28000, 2 in the plan",
            "not finished then: 1 insert",
            "  operation 2 (AddPerson), t 28000: updateStream_0_1_person.csv:1",
            "    started at event 4 by worker 1 at 200 ms, finished at event 6 at 206 ms",
        ],
    ),
    (
        at(2, "S|1|0|100", "S|2|0|200"),
        "violated event 3 rule V6 needs -1 found 1",
        ["worker 0 had operation 1 (AddFriend) in hand, started at event 2 at 100 ms"],
    ),
    (
        at(3, "F|1|1|104|0|0"),
        "violated event 3 rule V7 needs 0 found 1",
        ["worker 1 had started nothing before", "worker 0 had it in hand: it started at event 2"],
    ),
    (
        at(2, "F|0|0|100|0|0"),
        "violated event 2 rule V7 needs -1 found 0",
        ["worker 0 had nothing in hand: its last event was 1", "nobody had it in hand: it started at"],
    ),
    (
        at(9, "F|4|1|309|7|1"),
        "violated event 9 rule V8 needs 8 found 7",
        ["its front may be 8 to 9, and is 7", "interactive_13_param.txt, query 1: IC13 [10,13]"],
    ),
    (
        at(1, "F|0|0|9|1|0"),
        "violated event 1 rule V8 needs 0 found 1",
        ["it is an insert, whose front is 0, and this one has 1"],
    ),
    (
        at(3, "F|1|0|99|0|0"),
        "violated event 3 rule V9 needs 100 found 99",
        ["event 2 before it, in line 4, is at 100 ms, and it at 99 ms"],
    ),
    (
        at(-1, "snblog|2|2|8"),
        "mismatched operations needs 10 found 8",
        ["the plan has 8 updates and 2 reads", "that is the number of updates: the run asked no reads"],
    ),
    (
        at(-1, "snblog|2|2|15"),
        "mismatched operations needs 10 found 15",
        ["with these updates it would be 7 reads: look at --freq"],
    ),
    (
        at(3, "F|1|0|104|0|4"),
        "miscounted event 3 needs 0 found 4",
        ["it is an insert, which has 0 rows"],
    ),
    (
        cut(3, "H|0"),
        "halted worker 0",
        ["worker 0 had this in hand, which started at event 2", "operation 1 (AddFriend): t 18000", "9 operations aren't finished, of which 1 were started:"],
    ),
    (
        cut(3),
        "incomplete operation 1",
        ["updateStream_0_0_person.csv:2: 18000|8000|8|10|12|18000", "the log ends after 3 events, at 100 ms"],
    ),
]
# The query IC2 of person 10 gives one row, and two once operation 6, a comment, is there.
ASKED = ["--ratio", "0.01", "--freq", "2:7"]
BESIDE = [
    "snblog|2|2|9",
    *ACCEPTED[1:7],
    "S|3|0|301",
    "F|3|0|305|0|0",
    "S|4|0|400",
    "F|4|0|403|0|0",
    "S|5|1|500",
    "F|5|1|504|0|0",
    "S|6|0|600",
    "S|7|1|600",
    "F|6|0|605|0|0",
]
LATE = ["S|{0}|0|{1}", "F|{0}|0|{1}|0|0"]


class Verdicts(Tried):
    def explained(self, lines: list[str], options: list[str] = RUN) -> tuple[int, str]:
        log = self.write("made.log", *lines)
        status, printed, told = tool(self.place, "explain", WALK, log, *options)
        self.assertEqual(told, "")
        return status, printed

    def test_what_is_said_of_each_broken_log(self) -> None:
        for change, verdict, said in BROKEN:
            with self.subTest(verdict=verdict):
                status, printed = self.explained(change(list(ACCEPTED)))
                self.assertEqual((status, printed.split("\n")[0]), (1, verdict))
                for text in said:
                    self.assertIn(text, printed)

    def counted(self, front: int, rows: int) -> str:
        last = [f"F|7|1|610|{front}|{rows}", "S|8|0|900", "F|8|0|901|0|0"]
        return self.explained([*BESIDE, *last], ASKED)[1]

    def test_which_fronts_would_give_a_count(self) -> None:
        found = self.counted(14, 2)
        self.assertEqual(found.split("\n")[0], "miscounted event 15 needs 1 found 2")
        self.assertIn("inserts at hand between its Start and its Finish: 1\n  operation 6 (AddComment)", found)
        self.assertIn("\n  14        1  the inserts that finished before its Start\n", found)
        self.assertIn("\n  15        2  operation 6 (AddComment), started at event 12", found)
        self.assertIn("the answer at its front 14:\n  [11,\"Bob\",\"Ray\",31,\"Yo\",6000]\n", found)
        self.assertIn("the count 2 is due at front 15: the front may be wrong", found)
        found = self.counted(15, 1)
        self.assertEqual(found.split("\n")[0], "miscounted event 15 needs 2 found 1")
        self.assertIn("the count 1 is due at front 14: the front may be wrong", found)
        found = self.counted(15, 3)
        self.assertIn("no legal front gives the count 3: the database answers or counts wrong", found)

    def test_what_held_late_operations_back(self) -> None:
        lines = ["snblog|2|1|8"]
        for number in range(8):
            lines += [it.format(number, 5000 + number) for it in LATE]
        status, printed = self.explained(lines, ["--ratio", "0.01"])
        self.assertEqual((status, printed.split("\n")[0]), (1, "late 0 of 8"))
        rows = [it.split(maxsplit=5) for it in printed.split("\n")[3:11]]
        self.assertEqual(rows[0][:5], ["0", "AddPerson", "0", "5,000", "5,000"])
        self.assertEqual(rows[0][5], "nothing in the log: it was due at 0")
        self.assertEqual(rows[1][5], "the dependency rule, by 0 (AddPerson) until 5,000")
        self.assertEqual(rows[2][5], "its worker, by 1 (AddFriend) until 5,001")
        self.assertIn("what held back all that weren't on time: ", printed)

    def test_what_an_accepted_log_could_have_shown(self) -> None:
        status, printed = self.explained(ACCEPTED)
        self.assertEqual((status, printed.split("\n")[0]), (0, "accepted 10 of 10"))
        for text in [
            "6 inserts are dependents",
            "6 of them wait for a person or a forum of the streams",
            "0 had to wait for one past the moment when they were due",
            "0 started while a person or a forum was being inserted",
            "at most 2 operations were at hand at once",
            "2 of 2 reads gave their most rows",
            "0 of 8 inserts are of a kind",
        ]:
            self.assertIn(f"  {text}", printed)
        last = ["F|7|1|610|15|2", "S|8|0|900", "F|8|0|901|0|0"]
        printed = self.explained([*BESIDE, *last], ASKED)[1]
        self.assertIn("0 of 1 reads gave their most rows", printed)
        # Two friendships and a comment.
        self.assertIn("3 of 8 inserts are of a kind", printed)

    def test_a_log_of_version_1(self) -> None:
        lines = ["snblog|1|2", *("|".join(it.split("|")[:5]) for it in ACCEPTED[1:])]
        status, printed = self.explained(lines)
        self.assertEqual(status, 0)
        self.assertIn("the log is of version 1 and has no counts", printed)

    def test_that_json_says_the_same(self) -> None:
        log = HERE / "logs/violated.log"
        told = json.loads(tool(self.place, "explain", WALK, log, *RUN, "--json")[1])
        self.assertEqual((told["event"], told["line"], told["rule"]), (5, 7, 5))
        self.assertEqual(told["operation"]["operation"], 3)
        self.assertEqual([it["operation"] for it in told["waits"]], [2])
        self.assertEqual((told["waits"][0]["start"], told["waits"][0]["finish"]), (4, 6))


class Words(Tried):
    def test_that_lines_that_are_none_are_said_in_words(self) -> None:
        for line, why in [
            ("X|1|0|100", "an event begins with S, F or H"),
            ("S|1|0", "an event S of version 2 has 4 fields"),
            ("F|0|0|9|0", "an event F of version 2 has 6 fields"),
            ("S|1|0|x", "the moment is no number up to 9223372036854775807: 'x'"),
            ("S|01|0|100", "the operation is no number up to 4294967295: '01'"),
            ("H|4294967296", "the worker is no number up to 4294967295"),
            ("F|0|0|9|0|-1", "the count of rows is no number up to"),
        ]:
            with self.subTest(line=line):
                log = self.write("made.log", *at(2, line)(list(ACCEPTED)))
                told = self.fails("explain", WALK, log, *RUN)
                self.assertTrue(told.startswith(f"{log}:4: {why}"), told)

    def test_that_headers_that_are_none_are_said_in_words(self) -> None:
        for header, why in [
            ("snblog|2|2", "a header of version 2 has 4 fields"),
            ("snblog|3|2|1", "the header is neither 'snblog|1|W' nor 'snblog|2|W|N'"),
            ("log|2|2|1", "the first field of the header isn't 'snblog'"),
            ("snblog|2|9|10", "the number of workers is no number up to 8: '9'"),
            ("snblog|2|0|10", "there is at least one worker"),
        ]:
            log = self.write("made.log", *at(-1, header)(list(ACCEPTED)))
            self.assertEqual(self.fails("explain", WALK, log, *RUN), f"{log}:1: {why}")

    def test_that_wrong_words_and_folders_are_said(self) -> None:
        self.assertIn("absent", self.fails("explain", WALK, self.place / "none", *RUN))
        log = HERE / "logs/accepted.log"
        self.assertIn("place_0_0.csv: absent", self.fails("explain", self.place, log))
        self.assertIn("no header", self.fails("explain", WALK, self.write("no.log", ""), *RUN))
        self.fails("explain", WALK)
        self.assertIn("no ratio", self.fails("explain", WALK, log, "--ratio", "0"))
        self.assertEqual(tool(self.place, "explain", "--help")[0], 0)


class Plans(Tried):
    def test_that_the_plan_is_that_of_the_examples(self) -> None:
        folder = made(self.place, 400, 300)
        for place, every in [(WALK, EACH), (WALK, "2:3,13:2"), (folder, EACH), (folder, "")]:
            wanted = made_of(place, ratio("0.0123"), frequencies(every)).operations
            found = Schedule(place, "0.0123", every)
            self.addCleanup(found.close)
            last: dict[int, int] = {}
            self.assertEqual(len(found), len(wanted))
            for it in wanted:
                number = it.number
                own = (found.t[number], found.depends[number], found.due(number), found.lane[number])
                self.assertEqual(own, (it.t, it.depends, it.due, it.lane))
                self.assertEqual(found.before[number], last.get(it.lane, -1))
                self.assertEqual(found.is_dependent(number), it.is_dependent)
                text = it.line or f"{it.kind} {json.dumps(list(it.params), separators=(',', ':'))}"
                self.assertEqual(found.text(number), text)
                last[it.lane] = number

    def test_that_empty_lines_are_counted(self) -> None:
        log = self.write("made.log", "", ACCEPTED[0], "", *ACCEPTED[1:])
        found = list(events(log))
        self.assertEqual((found[0].number, found[0].line, len(found)), (0, 4, 20))
        self.assertEqual(snb(self.place, "audit", WALK, log, *RUN), (0, ["accepted 10 of 10"]))


if __name__ == "__main__":
    unittest.main()
