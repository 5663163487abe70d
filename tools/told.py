"""What `explain` tells: lines for a reader, and the same as values for a program.

usage: from told import Told

It is not proved.
"""

from collections.abc import Sequence

from history import Event, History
from schedule import Schedule
from shared import Value, json_of, table

MOST = 10


class Told:
    """Lines of text, and under each key what they say."""

    def __init__(self, schedule: Schedule, history: History) -> None:
        self.schedule, self.history = schedule, history
        self.lines: list[str] = []
        self.values: dict[str, object] = {}

    def say(self, text: str, **values: object) -> None:
        self.lines.append(text)
        self.values |= values

    def json(self) -> str:
        return json_of(self.values | {"text": self.lines})

    def short(self, number: int) -> str:
        """An operation in a few words."""
        return f"operation {number} ({self.schedule.name(number)})"

    def start(self, number: int) -> str:
        """Where an operation started, in words."""
        event = self.history.start[number]
        if event < 0:
            return "never started"
        worker, at = self.history.worker[number], self.history.started[number]
        return f"started at event {event} by worker {worker} at {at} ms"

    def finish(self, number: int) -> str:
        event = self.history.finish[number]
        if event < 0:
            return "never finished"
        return f"finished at event {event} at {self.history.finished[number]} ms"

    def value(self, number: int) -> dict[str, Value]:
        schedule, history = self.schedule, self.history
        return {
            "operation": number,
            "kind": schedule.name(number),
            "t": schedule.t[number],
            "t_d": schedule.depends[number],
            "lane": schedule.lane[number],
            "due": schedule.due(number),
            "where": schedule.where(number),
            "text": schedule.text(number),
            "start": history.start[number],
            "started": history.started[number],
            "finish": history.finish[number],
            "finished": history.finished[number],
            "worker": history.worker[number],
        }

    def operation(self, number: int, key: str = "operation") -> None:
        """All of an operation."""
        it = self.schedule
        moments = f"t {it.t[number]}, t_d {it.depends[number]}, lane {it.lane[number]}"
        self.say(f"{self.short(number)}: {moments}, due at {it.due(number)} ms")
        self.say(f"  {it.where(number)}: {it.text(number)}", **{key: self.value(number)})

    def operations(self, numbers: Sequence[int], key: str) -> None:
        """Some operations with where they started and finished, the first ten of them in words."""
        for number in numbers[:MOST]:
            self.say(f"  {self.short(number)}, t {self.schedule.t[number]}: {self.schedule.where(number)}")
            self.say(f"    {self.start(number)}, {self.finish(number)}")
        if len(numbers) > MOST:
            self.say(f"  and {len(numbers) - MOST:,} more")
        self.values[key] = [self.value(it) for it in numbers[:1000]]

    def event(self, name: str, event: Event, line: str) -> None:
        self.say(f"{name}:{event.line}: {line}", line=event.line, event=event.number)

    def table(self, heads: Sequence[str], rows: Sequence[Sequence[Value]], key: str) -> None:
        for line in table(heads, rows):
            self.say(f"  {line}")
        self.values[key] = [dict(zip(heads, row)) for row in rows]
