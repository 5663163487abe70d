"""Tests the database over `sqlite3`, by answers worked out by hand from docs/FORMATS.md.

usage: python3 -m unittest discover examples
"""

import shutil
import tempfile
import unittest
from pathlib import Path

from sqlite.database import Database
from sqlite.fields import date, day, number
from sqlite.tables import TABLES, Refused

WALK = Path(__file__).resolve().parent / "walk"
MOST = 2**63 - 1
LATEST = 253402300799999


def person(key: int, first: str = "A", last: str = "B", lists: str = "||||") -> str:
    return f"1|0|1|{key}|{first}|{last}|m|0|1|ip|br|0|{lists}"


def comment(key: int, at: int, author: int, parent: str) -> str:
    return f"1|0|7|{key}|{at}|ip|br|c{key}|2|{author}|0|{parent}|"


class OverWalk(unittest.TestCase):
    """A copy of the folder `walk`, in which each test changes what it wants before it loads it."""

    def setUp(self) -> None:
        held = tempfile.TemporaryDirectory()
        self.addCleanup(held.cleanup)
        self.folder = Path(held.name) / "walk"
        shutil.copytree(WALK, self.folder)

    def loaded(self, *inserts: str, file: Path | None = None) -> Database:
        database = Database(self.folder, file)
        self.addCleanup(database.close)
        for line in inserts:
            database.insert(line)
        return database

    def write(self, name: str, *given: str) -> None:
        with open(self.folder / name, "w", encoding="utf-8", newline="\n") as file:
            file.write("".join(f"{line}\n" for line in given))

    def add(self, name: str, *given: str) -> None:
        with open(self.folder / name, "a", encoding="utf-8", newline="\n") as file:
            file.write("".join(f"{line}\n" for line in given))

    def refuses(self, wanted: str) -> None:
        with self.assertRaisesRegex(Refused, f"^{wanted}"):
            self.loaded()


class Loading(OverWalk):
    def test_that_all_rows_are_there(self) -> None:
        made = self.loaded().made
        counts = [made.execute(f"SELECT count(*) FROM {it}").fetchone()[0] for it in TABLES]
        self.assertEqual((len(counts), sum(counts)), (33, 33))

    def test_that_a_table_may_have_parts_and_bars_at_the_ends_of_lines(self) -> None:
        head = "id|firstName|lastName|gender|birthday|creationDate|locationIP|browserUsed|"
        self.write("person_1_0.csv", head, "", "15|E|F|x|0|9|ip||")
        self.write("person_isLocatedIn_place_1_0.csv", "a|b|", "15|0|")
        self.assertEqual(self.loaded().ask("IS1", [15]), [[["E", "F", 0, "ip", "", 0, "x", 9]]])

    def test_that_dates_come_in_words_too(self) -> None:
        line = "15|E|F|x|1970-01-02|2010-01-01T00:00:01.002+0000|i|b"
        self.write("person_1_0.csv", "|" * 7, line)
        self.write("person_isLocatedIn_place_1_0.csv", "|", "15|0")
        row = ["E", "F", 86400000, "i", "b", 0, "x", 1262304001002]
        self.assertEqual(self.loaded().ask("IS1", [15]), [[row]])

    def test_that_bytes_are_as_they_are(self) -> None:
        odd = "\r\u2028\x85\"'\\\x00\x0b \U0001f600"
        self.write("person_1_0.csv", "|" * 7, f"15|{odd}|\r|x|0|1|i|\r")
        self.write("person_isLocatedIn_place_1_0.csv", "|", "15|0")
        self.write("person_email_emailaddress_1_0.csv", "|", f"15|{odd}", "15|\r")
        database = self.loaded("1|0|8|10|15|7")
        self.assertEqual(database.ask("IS1", [15])[0][0][:2], [odd, "\r"])
        self.assertEqual(database.ask("IS1", [15])[0][0][4], "\r")
        self.assertEqual(database.ask("IC1", [10, odd])[0][0][8], sorted([odd, "\r"]))

    def test_that_an_edge_may_be_said_again_and_not_otherwise(self) -> None:
        self.add("person_knows_person_0_0.csv", "11|10|3000")
        self.loaded()
        self.add("person_knows_person_0_0.csv", "11|10|3001")
        self.refuses(r"person_knows_person_0_0\.csv:4: ")

    def test_that_nodes_come_once_and_edges_find_theirs(self) -> None:
        self.write("person_1_0.csv", "|" * 7, "10|E|F|x|0|1|i|b")
        self.refuses(r"person_1_0\.csv:2: UNIQUE")
        (self.folder / "person_1_0.csv").unlink()
        self.add("person_speaks_language_0_0.csv", "99|en")
        self.refuses(r"person_speaks_language_0_0\.csv:3: FOREIGN KEY")

    def test_that_a_comment_and_a_post_never_have_one_id(self) -> None:
        self.write("comment_1_0.csv", "|" * 5, "30|1|i|b|c|1")
        self.write("comment_hasCreator_person_1_0.csv", "|", "30|10")
        self.refuses(r"comment_hasCreator_person_1_0\.csv:2: UNIQUE")

    def test_that_what_is_no_row_is_refused_with_its_line(self) -> None:
        for name, line, why in [
            ("tag", "1|x", "2 fields"),
            ("tag", "01|x|u", "no number"),
            ("tag", "\u0661|x|u", "no number"),
            ("person_email_emailaddress", "10|", "an empty text"),
            ("forum", "1|t|2011-02-29T00:00:00.000+0000", "no day"),
        ]:
            self.write(f"{name}_1_0.csv", "|" * (len(TABLES[name]) - 1), "", line)
            self.refuses(rf"{name}_1_0\.csv:3: {why}")
            (self.folder / f"{name}_1_0.csv").unlink()
        (self.folder / "tag_1_0.csv").write_bytes(b"||\n1|\xff|u\n")
        self.refuses(r"tag_1_0\.csv:2: not UTF-8")

    def test_that_a_table_that_is_not_there_is_said(self) -> None:
        (self.folder / "tag_0_0.csv").unlink()
        self.refuses(r"tag_0_0\.csv: absent")

    def test_that_a_file_holds_the_database(self) -> None:
        file = self.folder / "made.db"
        self.assertEqual(self.loaded(file=file).ask("IC13", [10, 11]), [[[1]]])
        self.assertGreater(file.stat().st_size, 0)
        self.assertEqual(self.loaded(file=file).ask("IC13", [10, 11]), [[[1]]])


class Fields(unittest.TestCase):
    def test_what_numbers_and_dates_are(self) -> None:
        self.assertEqual(number(str(MOST)), MOST)
        self.assertEqual(date("9999-12-31T23:59:59.999+0000"), LATEST)
        self.assertEqual(day("1972-02-29"), 789 * 86400000)
        for wrong in ["", "00", "-1", "+1", "1_0", " 1", str(MOST + 1)]:
            self.assertRaises(ValueError, number, wrong)
        for wrong in ["1969-12-31", "1970-1-01", "2010-00-01", "1970-01-01\n", str(LATEST + 1)]:
            self.assertRaises(ValueError, day, wrong)
        for wrong in ["2010-01-01", "2010-01-01T24:00:00.000+0000", "2010-01-01T00:00:00.000"]:
            self.assertRaises(ValueError, date, wrong)


class Inserting(OverWalk):
    def test_the_rows_of_all_eight(self) -> None:
        made = self.loaded().made
        count = "SELECT sum(n) FROM ({})".format(
            " UNION ALL ".join(f"SELECT count(*) AS n FROM {it}" for it in TABLES)
        )
        before = made.execute(count).fetchone()[0]
        streams = sorted(WALK.glob("updateStream_*.csv"))
        given = [it for path in streams for it in path.read_text("utf-8").split("\n") if it]
        database = self.loaded(*sorted(given, key=lambda it: int(it.split("|")[0])))
        self.assertEqual(database.made.execute(count).fetchone()[0] - before, 20)

    def test_that_the_greatest_id_fits(self) -> None:
        database = self.loaded(person(MOST), f"1|0|8|{MOST}|10|5")
        self.assertEqual(database.ask("IS3", [MOST]), [[[10, "Ann", "Lee", 5]]])

    def test_that_an_element_counts_once(self) -> None:
        database = self.loaded(person(12, lists="en;de;en|z@a;b@a|0;0|0,2001;0,2001|0,2002"))
        database.insert("1|0|8|10|12|5")
        row = database.ask("IC1", [10, "A"])[0][0]
        self.assertEqual(row[8:10], [["b@a", "z@a"], ["de", "en"]])

    def test_that_a_failed_insert_leaves_nothing(self) -> None:
        database = self.loaded()
        for wrong in [person(12, lists="||77||"), "1|0|8|10|12|5", "1|0|8|10|11|5"]:
            self.assertRaises(ValueError, database.insert, wrong)
        self.assertEqual(database.ask("IS1", [12]), [[]])
        database.insert(person(12))

    def test_that_what_is_no_insert_is_an_error(self) -> None:
        database = self.loaded()
        for wrong in ["", "1|0", "1|0|9|1|2|3", "1|0|8|10|11", "x|0|2|10|30|5", "1|0|8|10|10|5"]:
            self.assertRaises(ValueError, database.insert, wrong)
        for parents in ["-1|-1", "30|31"]:
            self.assertRaises(ValueError, database.insert, comment(50, 1, 10, parents))


class Asking(OverWalk):
    def test_that_text_is_in_order_by_its_bytes(self) -> None:
        first, last = "\uffff", "\U00010000"  # in UTF-16 it would be the other way round
        lasts = {50: last, 51: first, 52: "a", 53: "Z"}
        given = [person(key, last=it) for key, it in lasts.items()]
        given += [f"1|0|8|10|{it}|5" for it in range(50, 54)]
        found = self.loaded(*given).ask("IC1", [10, "A"])[0]
        self.assertEqual([it[1] for it in found], ["Z", "a", first, last])

    def test_that_minutes_are_rounded_down_below_zero(self) -> None:
        given = [comment(50, 60000, 11, "30|-1"), comment(51, 120001, 11, "30|-1")]
        likes = ["1|0|3|10|50|59999", "1|0|3|11|51|179999"]
        found = self.loaded(*given, *likes).ask("IC7", [11])[0]
        self.assertEqual([(it[4], it[6], it[7]) for it in found], [(51, 0, True), (50, -1, False)])

    def test_that_of_likes_of_one_date_the_lower_message_counts(self) -> None:
        given = [comment(51, 1, 11, "30|-1"), comment(50, 2, 11, "30|-1")]
        likes = ["1|0|3|10|51|9", "1|0|3|10|50|9", "1|0|3|10|31|8"]
        found = self.loaded(*given, *likes).ask("IC7", [11])[0]
        self.assertEqual([it[3:5] for it in found], [[9, 50]])

    def test_that_a_root_is_found_through_comments(self) -> None:
        given = [comment(50, 9000, 11, "-1|31"), comment(51, 9001, 11, "-1|50")]
        database = self.loaded(*given)
        self.assertEqual(database.ask("IS2", [11])[0][0], [51, "c51", 9001, 30, 10, "Ann", "Lee"])
        self.assertEqual(database.ask("IS6", [51]), [[[20, "Wall", 10, "Ann", "Lee"]]])

    def test_that_a_post_shows_its_image_where_it_has_no_content(self) -> None:
        database = self.loaded("1|0|6|50|pic.png|9|i|b|en||0|10|20|0|")
        self.assertEqual(database.ask("IS4", [50]), [[[9, "pic.png"]]])

    def test_distances(self) -> None:
        given = [person(it) for it in range(50, 56)]
        given += [f"1|0|8|{it}|{it + 1}|5" for it in range(50, 54)] + ["1|0|8|50|52|5"]
        database = self.loaded(*given)
        pairs = {(50, 50): 0, (50, 51): 1, (54, 50): 3, (50, 55): -1, (55, 50): -1, (99, 99): -1}
        found = {it: database.ask("IC13", list(it))[0][0][0] for it in pairs}
        self.assertEqual(found, pairs)
        near = database.ask("IC1", [50, "A"])[0]
        self.assertEqual([it[0:3:2] for it in near], [[51, 1], [52, 1], [53, 2], [54, 3]])

    def test_that_what_is_no_read_is_an_error(self) -> None:
        database = self.loaded()
        for kind, params in [
            ("IS8", [1]),
            ("IS1", []),
            ("IS1", ["1"]),
            ("IS1", [True]),
            ("IS1", [MOST + 1]),
            ("IS1", [-1]),
            ("IC1", [1, 2]),
            ("IC2", [1, LATEST + 1]),
            ("IC11", [1, "x", 10000]),
        ]:
            self.assertRaises(ValueError, database.ask, kind, params)


if __name__ == "__main__":
    unittest.main()
