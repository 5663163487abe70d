"""What the tests of the tools share: calls of a tool, the lines of a log, folders of a generator.

usage: from trying import ACCEPTED, RUN, Tried, tool
"""

import os
import subprocess
import sys
from importlib.machinery import SourceFileLoader
from importlib.util import module_from_spec, spec_from_loader
from pathlib import Path
from types import ModuleType

import shared  # noqa: F401, since it makes the examples known
from support import HERE, WALK, InAFolder, called, snb

TOOLS = Path(__file__).resolve().parent
# The log that `audit` accepts of a run over the folder `walk`, and the options of that run.
ACCEPTED = (HERE / "logs/accepted.log").read_text(encoding="utf-8").removesuffix("\n").split("\n")
RUN = ["--ratio", "0.01", "--freq", "13:4"]


def tool(place: Path, name: str, *words: str | Path) -> tuple[int, str, str]:
    """The status of a call of a tool in a folder, and what it writes on its two outputs."""
    # A locale that knows ASCII alone: what is read and written doesn't depend on it.
    plain = os.environ | {"LC_ALL": "C", "PYTHONUTF8": "0", "PYTHONCOERCECLOCALE": "0"}
    if "SNB" in plain:
        plain["SNB"] = str(Path(plain["SNB"]).absolute())
    done = called(place, [sys.executable, "-B", TOOLS / name, *words], plain)
    return done.returncode, done.stdout.decode("utf-8"), done.stderr.decode("utf-8")


def module(name: str) -> ModuleType:
    """A tool as a module, to call its parts."""
    loader = SourceFileLoader(name, str(TOOLS / name))
    spec = spec_from_loader(name, loader)
    made = module_from_spec(spec)
    sys.modules[name] = made
    sys.dont_write_bytecode = True
    loader.exec_module(made)
    return made


def has_sqlite() -> bool:
    return subprocess.run([sys.executable, "-c", "import sqlite3"], capture_output=True).returncode == 0


class Tried(InAFolder):
    def fails(self, name: str, *words: str | Path) -> str:
        """What a tool says in one line on standard error where it ends with 2."""
        status, printed, told = tool(self.place, name, *words)
        self.assertEqual((status, printed, told.count("\n")), (2, "", 1), told)
        self.assertTrue(told.startswith(f"{name}: "), told)
        return told.removeprefix(f"{name}: ").removesuffix("\n")


__all__ = ["ACCEPTED", "HERE", "RUN", "TOOLS", "WALK", "Tried", "has_sqlite", "module", "snb", "tool"]
