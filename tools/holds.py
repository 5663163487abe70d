"""What held an operation back: the dependency rule, its lane, its worker, or nothing in the log.

usage: from holds import Waits, held

It is not proved.
"""

import heapq
from array import array
from bisect import bisect_right
from typing import NamedTuple

from history import History
from schedule import Schedule

ON_TIME = 1000


class Hold(NamedTuple):
    """What an operation waited for last, and until when."""

    until: int
    why: str
    operation: int


class Waits:
    """Until when the inserts of persons and forums that an insert waits for weren't all finished."""

    def __init__(self, schedule: Schedule, history: History) -> None:
        self.schedule = schedule
        # Of as many first dependencies, which of them finished last and when.
        self.last, self.who = array("q"), array("i")
        for number in schedule.dependencies:
            finished = history.finished[number]
            if not self.last or finished > self.last[-1]:
                self.last.append(finished)
                self.who.append(number)
            else:
                self.last.append(self.last[-1])
                self.who.append(self.who[-1])

    def of(self, number: int) -> tuple[int, int] | None:
        """When all that it waits for had finished, and which finished last. None waits for none."""
        if not self.schedule.is_dependent(number):
            return None
        count = bisect_right(self.schedule.dependency_t, self.schedule.depends[number])
        return (self.last[count - 1], self.who[count - 1]) if count else None


def held(schedule: Schedule, history: History, waits: Waits, number: int) -> Hold:
    """What came last of what an operation waited for before it started."""
    due, before = schedule.due(number), schedule.before[number]
    found = [Hold(due, "nothing", -1)]
    dependency = waits.of(number)
    if dependency:
        found.append(Hold(dependency[0], "the dependency rule, by", dependency[1]))
    if before >= 0 and schedule.is_in_turn(number):
        found.append(Hold(history.finished[before], "its lane, by", before))
    elif before >= 0:
        found.append(Hold(history.started[before], "its lane, by the Start of", before))
    previous = history.previous[number]
    if previous >= 0:
        found.append(Hold(history.finished[previous], "its worker, by", previous))
    # The first of those that ended at one moment.
    return max(found, key=lambda it: it.until)


def said(schedule: Schedule, history: History, hold: Hold, number: int) -> str:
    """A hold in words, with how long nothing held the operation back after it."""
    free = history.started[number] - hold.until
    if hold.operation < 0:
        return f"nothing in the log: it was due at {hold.until:,}"
    what = f"{hold.why} {hold.operation:,} ({schedule.name(hold.operation)}) until {hold.until:,}"
    return f"nothing in the log for {free:,} ms; before, {what}" if free > ON_TIME else what


def worst(schedule: Schedule, history: History, count: int) -> list[int]:
    """The operations that started latest after they were due, those first that waited longest."""
    late = (
        (history.started[number] - schedule.due(number), -number)
        for number in range(len(schedule))
        if history.started[number] >= 0
    )
    return [-number for lateness, number in heapq.nlargest(count, late) if lateness > 0]
