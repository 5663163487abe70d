"""A graph database over Python's `sqlite3`: loads a folder, applies inserts and answers reads.

usage: from sqlite.database import Database
       database = Database(Path("examples/walk"))
       database.insert("18000|8000|8|10|12|18000")
       database.ask("IS3", [10])

Tables, indexes and triggers are in `schema.sql`, each read is a file in `reads`. The database is in
memory, or in a file that is made anew. One connection serves all threads, one call at a time.
"""

import json
import sqlite3
from collections.abc import Callable
from contextlib import closing
from pathlib import Path
from threading import RLock

from sqlite.fields import MAX_ID, MAX_TIME, MAX_YEAR
from sqlite.inserts import rows_of_insert
from sqlite.tables import TABLES, Cell, Refused, rows

Params = list[int | str]
Answer = list[list]
Reply = list[Answer]

HERE = Path(__file__).resolve().parent
OF_A_PERSON = ("IS1", "IS2", "IS3")
OF_A_MESSAGE = ("IS4", "IS5", "IS6", "IS7")
# What the parameters of each read are: the greatest number, or none for a text.
KINDS: dict[str, tuple[int | None, ...]] = {
    **{kind: (MAX_ID,) for kind in (*OF_A_PERSON, *OF_A_MESSAGE, "IC7", "IC8")},
    "IC1": (MAX_ID, None),
    "IC2": (MAX_ID, MAX_TIME),
    "IC9": (MAX_ID, MAX_TIME),
    "IC11": (MAX_ID, None, MAX_YEAR),
    "IC13": (MAX_ID, MAX_ID),
}
# In which column of its first row a read has the person and the message of the reads that follow.
PERSON_AT = dict.fromkeys(["IC1", "IC2", "IC7", "IC8", "IC9", "IC11"], 0)
MESSAGE_AT = {"IC2": 3, "IC7": 4, "IC8": 4, "IC9": 3}
# Columns that SQLite holds as 0 or 1, and as a text in JSON.
FLAG_AT = {"IS7": 6, "IC7": 7}
LISTS_AT = {"IC1": (8, 9, 11, 12)}


def read_file(path: Path) -> str:
    with open(path, encoding="utf-8", newline="\n") as file:
        return file.read()


class Database:
    def __init__(self, folder: Path, file: Path | None = None) -> None:
        """Loads a folder that `snb check` accepts. What can't be loaded raises Refused."""
        if file is not None:
            file.unlink(missing_ok=True)
        # Held during each call; a caller holds it too where more than one call is to see one state.
        self.lock = RLock()
        self.reads = {kind: read_file(HERE / "reads" / f"{kind}.sql") for kind in KINDS}
        self.adds = {
            table: f"INSERT INTO {table} VALUES ({', '.join('?' * len(columns))})"
            for table, columns in TABLES.items()
        }
        self.made = sqlite3.connect(
            file or ":memory:", isolation_level=None, check_same_thread=False
        )
        try:
            self.made.execute("PRAGMA foreign_keys = on")
            self.made.executescript(read_file(HERE / "schema.sql"))
            self.within(lambda: self.load(folder))
        except BaseException:
            self.close()
            raise

    def close(self) -> None:
        self.made.close()

    def within(self, work: Callable[[], None]) -> None:
        """Does all of the work in one transaction, or nothing of it."""
        with self.lock:
            self.made.execute("BEGIN IMMEDIATE")
            try:
                work()
                self.made.execute("COMMIT")
            except BaseException:
                self.made.execute("ROLLBACK")
                raise

    def load(self, folder: Path) -> None:
        for table in TABLES:
            for place, row in rows(folder, table):
                try:
                    self.made.execute(self.adds[table], row)
                except sqlite3.Error as wrong:
                    if "_" not in table or not self.holds(table, row):
                        raise Refused(f"{place}: {wrong}") from None

    def holds(self, table: str, row: list[Cell]) -> bool:
        """Whether a table of edges has just this row: a line may say it again."""
        marks = ", ".join("?" * len(row))
        found = self.made.execute(f"SELECT 1 WHERE ({marks}) IN (SELECT * FROM {table})", row)
        return found.fetchone() is not None

    def insert(self, line: str) -> None:
        """Applies an insert, a line of an update stream. What it can't apply raises ValueError."""
        added = rows_of_insert(line)

        def add() -> None:
            for table, row in added:
                self.made.execute(self.adds[table], row)

        try:
            self.within(add)
        except sqlite3.IntegrityError as wrong:
            raise ValueError(str(wrong)) from None

    def ask(self, kind: str, params: Params) -> Reply:
        """The reply to a read: its own answer, and then those of the short reads that follow.

        A kind or parameters that no read has raise ValueError.
        """
        if kind not in KINDS:
            raise ValueError(f"no such read: {kind}")
        wanted = KINDS[kind]
        if len(params) != len(wanted) or not all(map(is_parameter, params, wanted)):
            raise ValueError(f"no parameters of {kind}: {params}")
        with self.lock:
            answer = self.answer(kind, params)
            return [answer, *(self.answer(*it) for it in following(kind, answer))]

    def answer(self, kind: str, params: Params) -> Answer:
        with closing(self.made.execute(self.reads[kind], params)) as found:
            answer = [list(row) for row in found]
        for row in answer:
            if kind in FLAG_AT:
                row[FLAG_AT[kind]] = bool(row[FLAG_AT[kind]])
            for column in LISTS_AT.get(kind, ()):
                row[column] = json.loads(row[column])
        return answer


def is_parameter(given: object, most: int | None) -> bool:
    if most is None:
        return isinstance(given, str)
    return isinstance(given, int) and not isinstance(given, bool) and 0 <= given <= most


def following(kind: str, answer: Answer) -> list[tuple[str, Params]]:
    """The short reads that follow a read, on the first row of its answer."""
    if not answer or kind not in PERSON_AT:
        return []
    asked: list[tuple[str, Params]] = [(it, [answer[0][PERSON_AT[kind]]]) for it in OF_A_PERSON]
    if kind in MESSAGE_AT:
        asked += [(it, [answer[0][MESSAGE_AT[kind]]]) for it in OF_A_MESSAGE]
    return asked
