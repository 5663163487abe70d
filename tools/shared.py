"""What the tools share: their words, how they end, calls of the program, and tables.

usage: from shared import Wrong, called, ended, table

It is not proved. The program is the script `snb` of this repository, or what the environment
variable SNB names.
"""

import argparse
import json
import os
import subprocess
import sys
from collections.abc import Callable, Sequence
from pathlib import Path
from typing import NoReturn

TOP = Path(__file__).resolve().parents[1]
# The plan and the fields of files are those of the examples.
sys.path.append(str(TOP / "examples"))
from plan import frequencies, ratio  # noqa: E402

Value = str | int | float | bool | None


class Wrong(Exception):
    """What is wrong with words or files, in one line."""


class Parser(argparse.ArgumentParser):
    """Says in one line which words are wrong."""

    def error(self, message: str) -> NoReturn:
        raise Wrong(f"{message} (--help tells the words)")


def parser(tool: str, text: str) -> Parser:
    form = argparse.RawDescriptionHelpFormatter
    return Parser(prog=tool, description=text, formatter_class=form, allow_abbrev=False)


def of_a_run(made: Parser) -> None:
    """The words of the tools that look at a run: a folder, a log and the options of `audit`."""
    made.add_argument("folder", metavar="DIR", type=Path, help="the folder of the run")
    made.add_argument("log", metavar="LOG", type=Path, help="its log")
    made.add_argument("--ratio", metavar="R", default="1", help="that of the run; 1 if not given")
    made.add_argument("--freq", metavar="L", default="", help="that of the run; none if not given")


def options(given: argparse.Namespace) -> list[str]:
    # Here, so that what is wrong with them is said in words.
    ratio(given.ratio)
    frequencies(given.freq)
    return ["--ratio", given.ratio, *(["--freq", given.freq] if given.freq else [])]


def ended(tool: str, work: Callable[[list[str]], int]) -> NoReturn:
    """Ends the tool with what the work answers, or with 2 and one line on standard error."""
    # What is shown doesn't depend on the locale, and bytes that are no text show as such.
    for stream in (sys.stdout, sys.stderr):
        stream.reconfigure(encoding="utf-8", errors="backslashreplace", newline="\n")
    try:
        status = work(sys.argv[1:])
        sys.stdout.flush()
    except BrokenPipeError:
        # Nobody reads the rest. What is still held must not be written at the end.
        os.dup2(os.open(os.devnull, os.O_WRONLY), sys.stdout.fileno())
        status = 2
    except (Wrong, OSError, ValueError) as wrong:
        print(f"{tool}: {wrong}", file=sys.stderr)
        status = 2
    sys.exit(status)


def program() -> Path:
    return Path(os.environ.get("SNB", TOP / "snb")).absolute()


def called(*words: str | Path, place: Path | None = None) -> tuple[int, list[str]]:
    """The status of a call of the program, in a folder, and the lines that it shows."""
    done = subprocess.run(
        [program(), *words], cwd=place, stdin=subprocess.DEVNULL, stdout=subprocess.PIPE
    )
    lines = done.stdout.decode("utf-8", "replace").removesuffix("\n").split("\n")
    if done.returncode not in (0, 1, 3):
        shown = " ".join(map(str, words))
        raise Wrong(f"`snb {shown}` ended with status {done.returncode}")
    return done.returncode, lines


def json_of(value: object) -> str:
    return json.dumps(value, ensure_ascii=False, separators=(",", ":"))


def table(heads: Sequence[str], rows: Sequence[Sequence[Value]]) -> list[str]:
    """The lines of a table: numbers to the right, texts to the left, two spaces between."""
    shown = [[*heads], *([show(it) for it in row] for row in rows)]
    widths = [max(len(row[at]) for row in shown) for at in range(len(heads))]
    right = [all(isinstance(row[at], int) for row in rows) for at in range(len(heads))]
    found = []
    for row in shown:
        cells = [
            it.rjust(width) if at_right else it.ljust(width)
            for it, width, at_right in zip(row, widths, right)
        ]
        found.append("  ".join(cells).rstrip())
    return found


def show(value: Value) -> str:
    if isinstance(value, float):
        return f"{value:,.1f}"
    return f"{value:,}" if isinstance(value, int) else "" if value is None else str(value)


def span(milliseconds: int) -> str:
    """A span of time as a person says it."""
    if milliseconds < 60_000:
        return f"{milliseconds / 1000:g} s"
    seconds = milliseconds // 1000
    parts = [(seconds // 86400, "days"), (seconds // 3600 % 24, "h")]
    parts += [(seconds // 60 % 60, "min"), (seconds % 60, "s")]
    return " ".join(f"{count} {unit}" for count, unit in parts if count)
