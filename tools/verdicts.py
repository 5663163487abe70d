"""What each verdict of `snb audit` means for a log, in words.

usage: from verdicts import explain

It is not proved.
"""

import re
import tempfile
from collections import Counter
from collections.abc import Iterator
from pathlib import Path

from fronts import say_at_hand, say_fronts
from history import Event, History, events
from holds import ON_TIME, Waits, held, said, worst
from reach import accepted
from rules import broken
from schedule import Schedule
from shared import Wrong, called, json_of
from told import MOST, Told

VERDICT = re.compile(
    r"violated event (?P<event>\d+) rule V(?P<rule>\d) needs (?P<needs>-?\d+) found (?P<found>-?\d+)"
    r"|miscounted event (?P<counted>\d+) needs (?P<due>\d+) found (?P<rows>\d+)"
    r"|mismatched operations needs (?P<plan>\d+) found (?P<header>\d+)"
    r"|halted worker (?P<worker>\d+)|incomplete operation (?P<operation>\d+)"
    r"|(?P<share>late|accepted) (?P<on_time>\d+) of (?P<all>\d+)"
)


def event_at(log: Path, number: int) -> Event:
    for event in events(log):
        if event.number == number:
            return event
    raise Wrong(f"{log}: it has no event {number}")


def line_at(path: Path, number: int) -> str:
    with open(path, "rb") as file:
        for at, line in enumerate(file, 1):
            if at == number:
                return line.removesuffix(b"\n").decode("utf-8", "backslashreplace")
    raise Wrong(f"{path}: it has no line {number}")


def expected(folder: Path, every: str, number: int) -> str:
    """The case of an operation, as `snb expect` writes it."""
    with tempfile.TemporaryDirectory() as name:
        options = ["--freq", every] if every else []
        status, shown = called("expect", folder.absolute(), *options, place=Path(name))
        if status:
            raise Wrong(f"`snb expect`: {shown[0]}")
        return line_at(Path(name) / "snb.cases", number + 2)


def say_operation(told: Told, folder: Path, every: str, number: int) -> None:
    """An operation, once it is sure that the program numbers it so too."""
    if number >= len(told.schedule):
        return
    told.operation(number)
    case = expected(folder, every, number)
    text = told.schedule.text(number)
    if told.schedule.is_read(number):
        begins = json_of({"params": told.schedule.asked(number), "read": text.split(" ")[0]})[:-1]
    else:
        begins = json_of({"insert": "|".join(text.split("|")[:3])})[:-2]
    if not case.startswith(begins):
        raise Wrong(f"operation {number} isn't the one of `snb expect`, which is {case}")
    told.say(f"  line {number + 2} of `snb expect`: {case}", case=case)


def violated(told: Told, folder: Path, log: Path, every: str, found: re.Match[str]) -> None:
    event = event_at(log, int(found["event"]))
    told.event(str(log), event, line_at(log, event.line))
    if event.letter != "H":
        say_operation(told, folder, every, event.operation)
    broken(told, log, event, int(found["rule"]), int(found["needs"]))


def miscounted(told: Told, folder: Path, log: Path, every: str, found: re.Match[str]) -> None:
    event = event_at(log, int(found["counted"]))
    told.event(str(log), event, line_at(log, event.line))
    say_operation(told, folder, every, event.operation)
    told.say(f"rows: the log says {found['rows']}, due at front {event.front}: {found['due']}")
    if told.schedule.is_read(event.operation):
        say_at_hand(told, event)
        say_fronts(told, folder, event)
    else:
        told.say("it is an insert, which has 0 rows")


def mismatched(told: Told, header: int) -> None:
    count = len(told.schedule)
    reads = sum(map(told.schedule.is_read, range(count)))
    told.say(f"the plan has {count - reads:,} updates and {reads:,} reads", reads=reads)
    told.say(f"the header of the log says {header:,} operations", header=header)
    if header == count - reads:
        told.say("that is the number of updates: the run asked no reads, so leave out --freq")
    elif header > count - reads:
        told.say(f"with these updates it would be {header - count + reads:,} reads: look at --freq")
    else:
        told.say("that is less than there are updates: the folder is another one")


def halted(told: Told, log: Path, worker: int) -> None:
    event = event_at(log, told.history.halts[worker])
    told.event(str(log), event, line_at(log, event.line))
    own = [it for it in range(len(told.schedule)) if told.history.worker[it] == worker]
    at = told.history.start
    last = max((it for it in own if at[it] < event.number), key=at.__getitem__, default=None)
    if last is None:
        told.say(f"worker {worker} had started nothing")
    elif 0 <= told.history.finish[last] < event.number:
        told.say(f"worker {worker} had nothing in hand; last it had {told.short(last)}", hand=None)
    else:
        told.say(f"worker {worker} had this in hand, which {told.start(last)}:")
        told.operation(last, "hand")
    others = sorted(set(told.history.halts) - {worker})
    if others:
        told.say(f"workers that halted later: {', '.join(map(str, others))}", others=others)
    say_left(told)


def say_left(told: Told) -> None:
    """What isn't finished at the end of the log."""
    history = told.history
    left = [it for it in range(len(told.schedule)) if history.finish[it] < 0]
    begun = [it for it in left if history.start[it] >= 0]
    told.say(f"{len(left):,} operations aren't finished, of which {len(begun):,} were started:")
    told.operations(begun, "begun")
    told.say(f"the log ends after {history.count:,} events, at {history.last} ms", left=len(left))


def late(told: Told) -> None:
    schedule, history = told.schedule, told.history
    waits = Waits(schedule, history)
    rows = []
    for number in worst(schedule, history, MOST):
        due, started = schedule.due(number), history.started[number]
        why = said(schedule, history, held(schedule, history, waits, number), number)
        rows.append([number, schedule.name(number), due, started, started - due, why])
    told.say(f"on time is a Start up to {ON_TIME} ms after the due moment; the latest, in ms:")
    told.table(["operation", "kind", "due", "started", "late", "held back by"], rows, "worst")
    found = Counter(
        held(schedule, history, waits, it).why.split(",")[0] for it in late_ones(schedule, history)
    )
    shown = ", ".join(f"{what} {count:,}" for what, count in found.most_common())
    told.say(f"what held back all that weren't on time: {shown}", held=found)
    told.say(f"the last is due at {schedule.due(len(schedule) - 1):,} ms, the log ends at {history.last:,} ms")


def refused(log: Path, said: str) -> Wrong:
    """Why a log is refused, in words where a line of it is."""
    if said.startswith("refused: log:") and not said.endswith(("absent", "no header", "too large")):
        for _ in events(log):
            pass
    return Wrong(said.replace("refused: log", f"refused: {log}", 1))


def late_ones(schedule: Schedule, history: History) -> Iterator[int]:
    """The operations that weren't on time."""
    for number in range(len(schedule)):
        if history.started[number] - schedule.due(number) > ON_TIME:
            yield number


def explain(told: Told, folder: Path, log: Path, every: str, verdict: str) -> None:
    """Tells what a verdict means, in the words of the program's own."""
    found = VERDICT.fullmatch(verdict)
    if not found:
        raise Wrong(f"`snb audit` says something else: {verdict}")
    told.say(verdict, verdict=verdict)
    if found["event"]:
        violated(told, folder, log, every, found)
    elif found["counted"]:
        miscounted(told, folder, log, every, found)
    elif found["header"]:
        mismatched(told, int(found["header"]))
    elif found["worker"]:
        halted(told, log, int(found["worker"]))
    elif found["operation"]:
        say_operation(told, folder, every, int(found["operation"]))
        say_left(told)
    else:
        (late if found["share"] == "late" else accepted)(told)
