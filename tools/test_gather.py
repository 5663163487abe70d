"""Tests `gather`: over folders as LDBC's generator makes them, made of `examples/walk`.

usage: python3 -m unittest discover tools

The environment variable SNB names another program than the script `snb`.
"""

import json
import shutil
import unittest
from pathlib import Path
from unittest.mock import patch

from sources import COMPOSITE, MERGED
from sqlite.tables import TABLES
from trying import WALK, Tried, module, snb, tool

STATIC = ("place", "tag", "tagclass", "organisation")


class Gathered(Tried):
    def generated(self) -> Path:
        """Folders as the generator makes them, with streams of two threads."""
        source = self.place / "out"
        for name in ("static", "dynamic"):
            (source / "social_network" / name).mkdir(parents=True)
        (source / "substitution_parameters").mkdir()
        for path in WALK.iterdir():
            where = source / "social_network"
            if path.suffix == ".txt":
                where = source / "substitution_parameters"
            elif not path.name.startswith("updateStream"):
                where /= "static" if path.name.split("_")[0] in STATIC else "dynamic"
            shutil.copyfile(path, where / path.name)
        network = source / "social_network"
        for kind in ("person", "forum"):
            old = network / f"updateStream_0_1_{kind}.csv"
            old.rename(network / f"updateStream_1_0_{kind}.csv")
        (network / "updateStream.properties").write_text("x", encoding="utf-8")
        return source

    def test_that_each_file_has_the_bytes_of_its_source(self) -> None:
        source = self.generated()
        # Part 1 of a table by another thread, and stream 10 after stream 9.
        dynamic = source / "social_network/dynamic"
        (dynamic / "person_0_0.csv").rename(dynamic / "person_2_0.csv")
        shutil.copyfile(WALK / "updateStream_0_2_forum.csv", source / "social_network/updateStream_10_0_forum.csv")
        (source / "social_network/updateStream_0_2_forum.csv").rename(
            source / "social_network/updateStream_9_0_forum.csv"
        )
        for options in ([], ["--copy"]):
            target = self.place / f"made{len(options)}"
            status, printed, told = tool(self.place, "gather", source, target, *options)
            self.assertEqual((status, told), (0, ""))
            names = {path.name for path in WALK.iterdir()} | {"updateStream_0_3_forum.csv"}
            self.assertEqual({path.name for path in target.iterdir()}, names)
            for path in WALK.iterdir():
                self.assertEqual((target / path.name).read_bytes(), path.read_bytes())
                self.assertEqual((target / path.name).is_symlink(), not options)
            for line in [
                "updateStream_0_1_person.csv is updateStream_1_0_person.csv",
                "updateStream_0_3_forum.csv is updateStream_10_0_forum.csv",
                "person_0_0.csv is person_2_0.csv",
                "not read, files of other names: 1 (updateStream.properties)",
            ]:
                self.assertIn(f"\n{line}\n", printed)

    def test_that_what_is_counted_is_what_check_counts(self) -> None:
        source, target = self.generated(), self.place / "made"
        words = [source, target, "--ratio", "0.01", "--json"]
        told = json.loads(tool(self.place, "gather", *words)[1])
        rows = {it["files"]: (it["how many"], it["rows"]) for it in told["files"]}
        self.assertEqual(rows["tables"], (33, 33))
        self.assertEqual((rows["person streams"], rows["forum streams"]), ((2, 4), (3, 4)))
        size = sum(path.stat().st_size for path in WALK.iterdir())
        self.assertEqual({it["files"]: it["bytes"] for it in told["files"]}["all"], size)
        self.assertEqual((told["span"], told["run"], told["wrong"]), (90000, 900, []))
        wanted = ["rows 33", "updates 8", "reads 2", "closed"]
        self.assertEqual(snb(self.place, "check", target, "--freq", "13:4"), (0, wanted))
        printed = tool(self.place, "gather", source, self.place / "more", "--ratio", "1000")[1]
        self.assertIn("\nthe streams span 1 min 30 s\n", printed)
        self.assertIn("\na run at ratio 1000 takes at least 1 days 1 h\n", printed)

    def test_that_other_serializers_are_said(self) -> None:
        for gone, name in [
            (COMPOSITE, "CsvComposite"),
            (MERGED, "CsvMergeForeign"),
            (COMPOSITE + MERGED, "CsvCompositeMergeForeign"),
        ]:
            source, target = self.generated(), self.place / "made"
            for table in gone:
                next(source.rglob(f"{table}_0_0.csv")).unlink()
            status, printed, _ = tool(self.place, "gather", source, target)
            wanted = f"the files are those of the serializer {name}, which aren't read: use CsvBasic\n"
            self.assertEqual((status, printed), (1, wanted))
            self.assertFalse(target.exists())
            shutil.rmtree(source)

    def test_that_what_is_missing_is_said(self) -> None:
        source, target = self.generated(), self.place / "made"
        next(source.rglob("post_0_0.csv")).unlink()
        status, printed, _ = tool(self.place, "gather", source, target)
        self.assertEqual((status, printed.split("\n")[-2]), (1, "post_0_0.csv: absent"))
        self.assertFalse(target.exists())

    def test_that_limits_are_said(self) -> None:
        gather, source = module("gather"), self.generated()
        for name, most, told in [
            ("MAX_ROWS", 47, "48 rows, and at most 47 are read"),
            ("MAX_BYTES", 1561, "1,562 bytes, and at most 1,561 are read"),
            ("MAX_LANES", 2, "updateStream forum: 3 files, and at most 2 are read"),
        ]:
            found = gather.found_in(source)
            all_of = {it: gather.counted(it) for it in found.sources}
            self.assertEqual(list(gather.wrong_with(found, all_of)), [])
            with patch.object(gather, name, most):
                self.assertEqual(list(gather.wrong_with(found, all_of)), [told])

    def test_that_wrong_words_and_files_are_said(self) -> None:
        source, target = self.generated(), self.place / "made"
        self.assertIn("no folder", self.fails("gather", self.place / "none", target))
        self.assertIn("it is there, and no empty folder", self.fails("gather", source, source))
        self.assertIn("it is in", self.fails("gather", source, source / "new"))
        self.assertIn("no ratio", self.fails("gather", source, target, "--ratio", "0"))
        (self.place / "empty").mkdir()
        self.assertIn("no file of the gen", self.fails("gather", self.place / "empty", target))
        again = source / "social_network/place_0_0.csv"
        shutil.copyfile(WALK / "place_0_0.csv", again)
        self.assertIn("place_0_0.csv: also in ", self.fails("gather", source, target))
        again.unlink()
        person = next(source.rglob("person_0_0.csv"))
        person.write_text("\na|b|c|d|e|f|g|h|place\n", encoding="utf-8")
        told = self.fails("gather", source, target)
        self.assertTrue(told.startswith(f"{person}:2: its header has 9 columns, and 8 are read"), told)
        stream = next(source.rglob("updateStream_0_0_forum.csv"))
        shutil.copyfile(WALK / "person_0_0.csv", person)
        stream.write_text("1|0|4|1\nx|0\n", encoding="utf-8")
        self.assertTrue(self.fails("gather", source, target).startswith(f"{stream}:2: "))
        self.assertFalse(target.exists())

    def test_that_the_tables_are_those_of_the_examples(self) -> None:
        self.assertLessEqual({*MERGED, *COMPOSITE}, set(TABLES))
        self.assertEqual(len(TABLES), 33)


if __name__ == "__main__":
    unittest.main()
