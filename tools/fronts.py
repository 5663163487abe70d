"""How many rows a read gives at each front that is legal for it, by `snb validate`.

usage: from fronts import say_fronts

It is not proved. A file of cases with the inserts in the order of their Finishes and the read at
each front is handed to the program, which shows the reply that is due where another one stands.
"""

import json
import tempfile
from pathlib import Path
from typing import NamedTuple

from history import Event
from shared import Wrong, called, json_of
from told import Told

# How often the reply may change from one front to the next before the others aren't looked at.
CALLS = 20


class Reach(NamedTuple):
    """Fronts that count the same inserts, and the insert that the first of these adds."""

    least: int
    most: int
    adds: int


def shown_of(reach: Reach) -> str:
    return f"{reach.least}" if reach.least == reach.most else f"{reach.least} to {reach.most}"


def inserts_before(told: Told, event: int) -> list[int]:
    """The inserts that finished before an event, in this order."""
    schedule, finish = told.schedule, told.history.finish
    found = [it for it in range(len(schedule)) if 0 <= finish[it] < event]
    return sorted((it for it in found if not schedule.is_read(it)), key=lambda it: finish[it])


def reaches(told: Told, event: Event, inserts: list[int]) -> list[Reach]:
    least = told.history.start[event.operation] + 1
    begins = [(least, -1)]
    begins += [(at + 1, it) for it in inserts if (at := told.history.finish[it]) >= least]
    ends = [begin - 1 for begin, _ in begins[1:]] + [event.number]
    return [Reach(begin, end, it) for (begin, it), end in zip(begins, ends)]


def write(told: Told, path: Path, event: Event, inserts: list[int], replies: list[list]) -> list[int]:
    """Writes the cases, and answers in which lines the reads stand."""
    kind, params = told.schedule.name(event.operation), told.schedule.asked(event.operation)
    least, number, found, left = told.history.start[event.operation] + 1, 1, [], iter(replies)

    def read() -> str:
        found.append(number)
        return json_of({"params": params, "read": kind, "reply": next(left)}) + "\n"

    with open(path, "w", encoding="utf-8", newline="\n") as file:
        file.write('{"cases":1}\n')
        begun = False
        for insert in inserts:
            # The first read stands before the first insert that its least front doesn't count.
            if not begun and told.history.finish[insert] >= least:
                begun, number = True, number + 1
                file.write(read())
            number += 1
            file.write(json_of({"insert": told.schedule.text(insert)}) + "\n")
            if begun:
                number += 1
                file.write(read())
        if not begun:
            number += 1
            file.write(read())
    return found


def replies(told: Told, folder: Path, event: Event, inserts: list[int], count: int) -> list[list]:
    """The replies at the first of the fronts. Where one is wrong, the program shows the right one."""
    # No answer has no rows and all that follow it; so a file of such replies is one of cases.
    found: list[list] = [[[]]] * count
    with tempfile.TemporaryDirectory() as name:
        path = Path(name) / "fronts.cases"
        for _ in range(CALLS):
            lines = write(told, path, event, inserts, found)
            status, shown = called("validate", folder.absolute(), path)
            if status == 0:
                return found
            if status == 3:
                raise Wrong(f"`snb validate` refuses the cases of the fronts: {shown[0]}")
            at = lines.index(int(shown[0].removeprefix("differs line ")))
            given = json.loads(shown[2].removeprefix("given "))
            found = found[:at] + [given] * (count - at)
    return found[:at]


def say_fronts(told: Told, folder: Path, event: Event) -> None:
    """The rows that are due at each legal front, and which of them give the count of the log."""
    inserts = inserts_before(told, event.number)
    all_of = reaches(told, event, inserts)
    found = replies(told, folder, event, inserts, len(all_of))
    rows = [
        [shown_of(reach), len(reply[0]), added(told, reach)]
        for reach, reply in zip(all_of, found)
    ]
    told.say("rows that are due at its legal fronts:")
    told.table(["front", "rows", "which counts also"], rows, "fronts")
    if len(found) < len(all_of):
        told.say(f"  from front {all_of[len(found)].least} on they weren't looked at")
    here = next((reply for it, reply in zip(all_of, found) if it.least <= event.front <= it.most), None)
    if here is not None:
        told.say(f"the answer at its front {event.front}:", due=here)
        for row in here[0]:
            told.say(f"  {json_of(row)}")
    fits = [it for it, reply in zip(all_of, found) if len(reply[0]) == event.rows]
    shown = ", ".join(map(shown_of, fits))
    if fits:
        told.say(f"the count {event.rows} is due at front {shown}: the front may be wrong")
    elif len(found) == len(all_of):
        told.say(f"no legal front gives the count {event.rows}: the database answers or counts wrong")
    told.values["fits"] = [[it.least, it.most] for it in fits]


def added(told: Told, reach: Reach) -> str:
    if reach.adds < 0:
        return "the inserts that finished before its Start"
    return f"{told.short(reach.adds)}, {told.start(reach.adds)}"


def say_at_hand(told: Told, event: Event) -> None:
    """The inserts at hand at some moment between the Start of a read and its Finish."""
    schedule, history = told.schedule, told.history
    begin = history.start[event.operation]
    found = [
        it
        for it in range(len(schedule))
        if 0 <= history.start[it] < event.number
        and not schedule.is_read(it)
        and not 0 <= history.finish[it] < begin
    ]
    told.say(f"inserts at hand between its Start and its Finish: {len(found)}")
    told.operations(found, "at_hand")
