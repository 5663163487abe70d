"""Tests `report`: the numbers of its page, its checksums, and that no picture is cut off.

usage: python3 -m unittest discover tools

The environment variable SNB names another program than the script `snb`.
"""

import hashlib
import re
import shutil
import unittest
from html.parser import HTMLParser
from pathlib import Path

import charts
import measures
from trying import ACCEPTED, HERE, RUN, WALK, Tried, has_sqlite, snb, tool

# Elements that have no end.
OPEN = ("meta",)
LETTER = 7.4


class Page(HTMLParser):
    """The tables and the texts of a page, and what is wrong with its elements."""

    def __init__(self, text: str) -> None:
        super().__init__()
        self.stack: list[str] = []
        self.tables: list[list[list[str]]] = []
        self.wrong: list[str] = []
        self.texts: list[tuple[dict[str, str], str]] = []
        self.given: dict[str, str] = {}
        self.feed(text)
        self.close()
        self.wrong += self.stack

    def handle_starttag(self, tag: str, attrs: list[tuple[str, str | None]]) -> None:
        self.given = {key: value or "" for key, value in attrs}
        self.wrong += [f"{tag} {key}" for key in self.given if key in ("src", "href", "onload")]
        if tag not in OPEN:
            self.stack.append(tag)
        if tag == "table":
            self.tables.append([])
        elif tag == "tr":
            self.tables[-1].append([])
        elif tag in ("td", "th"):
            self.tables[-1][-1].append("")

    def handle_endtag(self, tag: str) -> None:
        if not self.stack or self.stack.pop() != tag:
            self.wrong.append(f"/{tag}")

    def handle_data(self, data: str) -> None:
        if self.stack and self.stack[-1] in ("td", "th"):
            self.tables[-1][-1][-1] += data
        elif self.stack and self.stack[-1] == "text":
            self.texts.append((self.given, data))


class Paged(Tried):
    def reported(self, log: Path, options: list[str], folder: Path = WALK) -> tuple[int, str, Page]:
        status, printed, told = tool(self.place, "report", folder, log, "out.html", *options)
        self.assertEqual(told, "")
        text = self.text("out.html")
        page = Page(text)
        self.assertEqual(page.wrong, [])
        self.assertNotIn("url(", text)
        self.assertNotIn("@import", text)
        self.look_at_pictures(text, page)
        return status, printed, page

    def look_at_pictures(self, text: str, page: Page) -> None:
        """Whether all of each picture is within it, also the letters, and no two of an axis touch."""
        for of, shown in page.texts:
            wide = len(shown) * LETTER
            begins = {"end": -wide, "middle": -wide / 2, "start": 0.0}[of["text-anchor"]]
            self.assertGreaterEqual(float(of["x"]) + begins, -LETTER, shown)
            self.assertLessEqual(float(of["x"]) + begins + wide, charts.WIDE + LETTER, shown)
        for height, inside in re.findall(r'<svg viewBox="0 0 440 ([0-9.]+)"[^>]*>(.*?)</svg>', text, re.S):
            for key, value in re.findall(r' (x|x1|x2|y|y1|y2)="([-0-9.e]+)"', inside):
                most = charts.WIDE if key[0] == "x" else float(height)
                self.assertTrue(0 <= float(value) <= most, (key, value))
            for x, width in re.findall(r' x="([0-9.]+)" y="[0-9.]+" width="([0-9.]+)"', inside):
                self.assertLessEqual(float(x) + float(width), charts.WIDE + 1)


class Reports(Paged):
    def test_that_the_numbers_are_those_of_latency(self) -> None:
        log = HERE / "logs/accepted.log"
        status, printed, page = self.reported(log, RUN)
        self.assertEqual((status, printed), (0, "accepted 10 of 10\n"))
        lines = [it.split("|") for it in snb(self.place, "latency", WALK, log, *RUN)[1][1:]]
        wanted = {
            what: [[it[0], *it[2:]] for it in lines if it[1] == what]
            for what in ("latency", "lateness", "slack")
        }
        found = [it[1:] for it in page.tables if it[0][:2] == ["kind", "count"]]
        self.assertEqual(found, list(wanted.values()))
        hands = next(it for it in page.tables if it[0][0] == "worker")
        self.assertEqual([row[:2] for row in hands[1:]], [["0", "6"], ["1", "4"]])
        late = next(it for it in page.tables if it[0][0] == "number")
        self.assertEqual([row[:5] for row in late[1:3]], [["0", "AddPerson", "0", "2", "2"], ["4", "IC13", "300", "302", "2"]])
        self.assertEqual(len(late), 1 + 4)

    def test_that_checksums_are_those_of_the_files(self) -> None:
        log = self.write("a & <b>.log", *ACCEPTED)
        page = self.reported(log, RUN)[2]
        sums = dict(row for row in page.tables[-1][1:])
        files = [it for it in WALK.iterdir() if it.suffix == ".csv"]
        files += [WALK / "interactive_13_param.txt", log]
        wanted = {str(it): hashlib.sha256(it.read_bytes()).hexdigest() for it in files}
        self.assertEqual(sums, wanted)
        self.assertIn("snb</span>", self.text("out.html"))

    def test_that_a_log_that_is_not_accepted_is_explained(self) -> None:
        status, printed, page = self.reported(HERE / "logs/violated.log", RUN)
        self.assertEqual((status, printed), (1, "violated event 5 rule V5 needs 28000 found 27999\n"))
        self.assertEqual(len(page.tables), 1)
        self.assertIn("not finished then: 1 insert", self.text("out.html"))

    def test_a_late_run(self) -> None:
        lines = ["snblog|1|1"]
        for number in range(8):
            at = 2 * 3_600_000 + number * 600_000
            lines += [f"S|{number}|0|{at}", f"F|{number}|0|{at + 60_000}|0"]
        status, printed, page = self.reported(self.write("late.log", *lines), [])
        self.assertEqual((status, printed), (1, "late 0 of 8\n"))
        shown = [it for _, it in page.texts]
        self.assertIn("hours since the run began", shown)
        self.assertIn("Red: 1,000 ms", self.text("out.html"))

    def test_a_run_without_operations(self) -> None:
        folder = self.place / "none"
        shutil.copytree(WALK, folder, ignore=shutil.ignore_patterns("updateStream*"))
        log = self.write("none.log", "snblog|2|1|0")
        status, printed, _ = self.reported(log, [], folder)
        self.assertEqual((status, printed), (0, "accepted 0 of 0\n"))

    def test_that_wrong_words_and_files_leave_no_page(self) -> None:
        log = self.write("made.log", *ACCEPTED[:3], "S|1")
        self.assertIn(f"{log}:4: an event S", self.fails("report", WALK, log, "out.html", *RUN))
        self.assertIn("absent", self.fails("report", WALK, "none", "out.html", *RUN))
        self.fails("report", WALK, log)
        self.fails("report", WALK, HERE / "logs/accepted.log", "none/out.html", *RUN)
        self.assertEqual([it.name for it in self.place.iterdir()], ["made.log"])


class Pictures(unittest.TestCase):
    def test_that_numbers_on_an_axis_do_not_touch(self) -> None:
        for most in [0, 1, 9, 10, 99, 100, 1000, 12345, 10**6, 10**9, 2**63 - 1]:
            row = charts.Spread("LikeComment", "latency", 1, 0, 0, 0, 0, 0, most)
            page = Page(charts.spread([row], "t"))
            found = [(float(it["x"]), len(text)) for it, text in page.texts if it["text-anchor"] == "middle"][:-1]
            for (x, wide), (after, more) in zip(found, found[1:]):
                self.assertLess(x + wide * 3.4, after - more * 3.4 + 1, most)

    def test_round_steps(self) -> None:
        self.assertEqual(charts.steps(907, 6), [0, 200, 400, 600, 800, 1000])
        self.assertEqual(charts.steps(0.3, 4)[:2], [0, 0.1])
        self.assertEqual([measures.nice(it) for it in (0.1, 1, 3, 15.2, 51)], [1, 1, 5, 20, 100])


@unittest.skipUnless(has_sqlite(), "this Python has no sqlite3")
class Driven(Paged):
    """The run of the driver of the examples: compared, explained and reported on."""

    def test_a_run_of_the_driver(self) -> None:
        every = "1:4,2:2,7:4,8:4,9:4,11:8,13:2"
        options = ["--ratio", "0.001", "--freq", every]
        words = ["--workers", "1", "--quiet", *options]
        self.assertEqual(tool(self.place, str(HERE / "driver.py"), WALK, *words)[0], 0)
        self.assertEqual(snb(self.place, "expect", WALK, "--freq", every)[0], 0)
        # One worker does the operations in the order of their numbers.
        found = tool(self.place, "compare", "snb.cases", "driver.cases")
        self.assertEqual((found[0], found[1].split("\n")[0]), (0, "0 of 17 replies differ"))
        log = self.place / "driver.log"
        status, printed, _ = tool(self.place, "explain", WALK, log, *options)
        self.assertEqual((status, printed.split("\n")[0]), (0, "accepted 25 of 25"))
        self.assertEqual(self.reported(log, options)[:2], (0, "accepted 25 of 25\n"))


if __name__ == "__main__":
    unittest.main()
