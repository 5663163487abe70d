"""What an event that breaks a rule stands against: the operation, the worker or the moment.

usage: from rules import MEANS, broken

It is not proved. The rules V1 to V9 are those of docs/FORMATS.md, and which one an event breaks
is what `snb audit` says.
"""

from bisect import bisect_right
from collections.abc import Callable
from pathlib import Path

from history import Event, events
from told import Told

MEANS = {
    1: "an event names an operation of the plan and a worker of the run, who hasn't halted",
    2: "operations of a lane start in their order, each once",
    3: "in a forum stream an operation starts when all before it in its lane have finished",
    4: "an operation doesn't start before it is due",
    5: "an insert other than a person's starts when all inserts of persons and forums with a t"
    " up to its t_d have finished",
    6: "a worker starts an operation when it has none in hand",
    7: "a worker finishes the operation that it has in hand",
    8: "the front of a read counts the events from its Start to before its Finish, that of an"
    " insert is 0",
    9: "moments don't fall",
}


def before(log: Path, number: int) -> dict[int, Event]:
    """The last Start or Finish of each worker before an event."""
    found: dict[int, Event] = {}
    for event in events(log):
        if event.number >= number:
            break
        if event.letter != "H":
            found[event.worker] = event
    return found


def say_in_hand(told: Told, log: Path, event: Event, worker: int) -> None:
    last = before(log, event.number).get(worker)
    if last is None:
        told.say(f"worker {worker} had started nothing before", hand=None)
    elif last.letter == "F":
        told.say(f"worker {worker} had nothing in hand: its last event was {last.number}", hand=None)
    else:
        what = told.short(last.operation) if last.operation < len(told.schedule) else "an operation"
        told.say(
            f"worker {worker} had {what} in hand, started at event {last.number} at {last.at} ms",
            hand=last.operation,
        )


def rule_1(told: Told, log: Path, event: Event, needs: int) -> None:
    workers, count = told.history.header.workers, len(told.schedule)
    if event.letter != "H" and event.operation >= count:
        told.say(f"operation {event.operation} isn't one of the plan, which has 0 to {count - 1}")
        told.say("the log is of another plan: look whether the folder and --freq are those of the run")
    elif event.worker >= workers:
        told.say(f"worker {event.worker} isn't one of the run, whose header has {workers}")
    else:
        halt = told.history.halts[event.worker]
        told.say(f"worker {event.worker} had halted at event {halt}", halt=halt)


def rule_2(told: Told, log: Path, event: Event, needs: int) -> None:
    if needs == -1:
        told.say(f"it was started before: {told.start(event.operation)}")
        return
    told.say("before it in its lane, and not started then, is:")
    told.operation(needs, "before")
    told.say(f"  it {told.start(needs)}")


def rule_3(told: Told, log: Path, event: Event, needs: int) -> None:
    told.say("before it in its lane, and not finished then, is:")
    told.operation(needs, "before")
    told.say(f"  it {told.start(needs)}, {told.finish(needs)}")


def rule_4(told: Told, log: Path, event: Event, needs: int) -> None:
    told.say(f"it started at {event.at} ms, {needs - event.at} ms before it was due at {needs} ms")
    told.say("look whether --ratio is that of the run: the smaller it is, the earlier all is due")


def rule_5(told: Told, log: Path, event: Event, needs: int) -> None:
    schedule, history = told.schedule, told.history
    count = bisect_right(schedule.dependency_t, needs)
    waits = [
        number
        for number in schedule.dependencies[:count]
        if not 0 <= history.finish[number] < event.number
    ]
    what = "insert" if len(waits) == 1 else "inserts"
    told.say(f"it waits for the persons and forums up to t_d {needs}, {count:,} in the plan")
    told.say(f"not finished then: {len(waits):,} {what}")
    told.operations(waits, "waits")


def rule_6(told: Told, log: Path, event: Event, needs: int) -> None:
    say_in_hand(told, log, event, event.worker)


def rule_7(told: Told, log: Path, event: Event, needs: int) -> None:
    say_in_hand(told, log, event, event.worker)
    if needs >= 0:
        told.say(f"worker {needs} had it in hand: it {told.start(event.operation)}", holder=needs)
    else:
        told.say(f"nobody had it in hand: it {told.start(event.operation)}", holder=None)
        told.say(f"  and {told.finish(event.operation)}")


def rule_8(told: Told, log: Path, event: Event, needs: int) -> None:
    if not told.schedule.is_read(event.operation):
        told.say(f"it is an insert, whose front is 0, and this one has {event.front}")
        return
    least, most = told.history.start[event.operation] + 1, event.number
    told.say(f"it {told.start(event.operation)}")
    told.say(f"its front may be {least} to {most}, and is {event.front}", least=least, most=most)


def rule_9(told: Told, log: Path, event: Event, needs: int) -> None:
    last = max(before(log, event.number).values(), key=lambda it: it.number)
    told.say(f"event {last.number} before it, in line {last.line}, is at {last.at} ms, and it at {event.at} ms")
    told.say("moments are read in one order, under one lock or by one counter, as events are")


RULES: list[Callable[[Told, Path, Event, int], None]] = [
    rule_1,
    rule_2,
    rule_3,
    rule_4,
    rule_5,
    rule_6,
    rule_7,
    rule_8,
    rule_9,
]


def broken(told: Told, log: Path, event: Event, rule: int, needs: int) -> None:
    told.say(f"rule V{rule}: {MEANS[rule]}", rule=rule)
    RULES[rule - 1](told, log, event, needs)
