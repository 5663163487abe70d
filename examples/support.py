"""What the tests of adapter and driver share: the program, folders, and what a call prints.

usage: from support import WALK, made, snb

The program is the script `snb` at the top of the repository, or what the environment variable SNB
names.
"""

import os
import subprocess
import sys
import tempfile
import unittest
from collections.abc import Sequence
from pathlib import Path

HERE = Path(__file__).resolve().parent
WALK = HERE / "walk"
ALL = "1:8,2:8,7:8,8:8,9:8,11:8,13:8"
EACH = "1:1,2:1,7:1,8:1,9:1,11:1,13:1"
SEED = "93"


def called(
    place: Path, words: Sequence[str | Path], around: dict[str, str]
) -> subprocess.CompletedProcess[bytes]:
    return subprocess.run(
        words,
        cwd=place,
        env=around,
        stdin=subprocess.DEVNULL,
        capture_output=True,
        timeout=600,
    )


def snb(place: Path, *words: str | Path) -> tuple[int, list[str]]:
    """The status of a call of the program in a folder, and the lines that it prints."""
    program = os.environ.get("SNB", str(HERE.parent / "snb"))
    done = called(place, [program, *words], dict(os.environ))
    return done.returncode, done.stdout.decode("utf-8").removesuffix("\n").split("\n")


def script(place: Path, name: str, *words: str | Path) -> tuple[int, str, str]:
    """The status of a call of an example in a folder, and what it writes on its two outputs."""
    # A locale that knows ASCII alone: what is read and written doesn't depend on it.
    plain = os.environ | {"LC_ALL": "C", "PYTHONUTF8": "0", "PYTHONCOERCECLOCALE": "0"}
    done = called(place, [sys.executable, HERE / name, *words], plain)
    return done.returncode, done.stdout.decode("utf-8"), done.stderr.decode("utf-8")


def made(folder: Path, rows: int, updates: int) -> Path:
    """A folder that the script `checks/dataset` writes."""
    numbers = ["--lines", str(rows), "--updates", str(updates), "--seed", SEED]
    words = [sys.executable, HERE.parent / "checks/dataset", folder / "made", *numbers]
    subprocess.run(words, check=True, stdout=subprocess.DEVNULL)
    return folder / "made"


class InAFolder(unittest.TestCase):
    """Each test has a new folder of its own."""

    def setUp(self) -> None:
        held = tempfile.TemporaryDirectory()
        self.addCleanup(held.cleanup)
        self.place = Path(held.name)

    def write(self, name: str, *lines: str) -> Path:
        with open(self.place / name, "w", encoding="utf-8", newline="\n") as file:
            file.write("".join(f"{line}\n" for line in lines))
        return self.place / name

    def text(self, name: str) -> str:
        with open(self.place / name, encoding="utf-8", newline="\n") as file:
            return file.read()
