"""What may start when, and the log of it: the dependency rule, the lanes, and one lock.

usage: from book import Book

A Start is noted in the same step in which a worker is given its operation, and a moment is read in
the same step in which its event is noted. So the log is in one order, and what a line says was true
when it was noted.
"""

from threading import Condition
from time import monotonic_ns

from plan import Operation, Plan
from sqlite.fields import MAX_TIME


class Book:
    def __init__(self, plan: Plan, workers: int) -> None:
        self.plan = plan
        self.turn = Condition()
        self.events: list[str] = []
        self.header = f"snblog|2|{workers}|{len(plan.operations)}"
        # Of each lane the place of the next operation, and whether a forum lane has one in hand.
        self.places = [0] * len(plan.lanes)
        self.busy = [False] * len(plan.lanes)
        # The inserts of persons and forums, in the order of t, and the first that isn't finished.
        self.dependencies = [it for it in plan.operations if it.is_dependency]
        self.finished: set[int] = set()
        self.first = 0
        self.started = 0
        self.late = 0
        self.stopped = False
        self.begin = monotonic_ns()

    def now(self) -> int:
        """The milliseconds since the begin, rounded down."""
        return (monotonic_ns() - self.begin) // 1_000_000

    def completion(self) -> int:
        """The moment up to which all inserts of persons and forums have finished."""
        while self.first < len(self.dependencies):
            operation = self.dependencies[self.first]
            if operation.number not in self.finished:
                return operation.t - 1
            self.first += 1
        return MAX_TIME

    def is_met(self, operation: Operation) -> bool:
        """Whether an operation has nothing to wait for but its moment and its lane."""
        return not operation.is_dependent or operation.depends <= self.completion()

    def is_due(self, operation: Operation, at: int) -> bool:
        return operation.due <= at

    def ready(self) -> Operation | None:
        """The first operation that no other holds back, due or not."""
        heads = [
            lane[place]
            for lane, place, busy in zip(self.plan.lanes, self.places, self.busy)
            if place < len(lane) and not busy
        ]
        return min(filter(self.is_met, heads), key=lambda it: it.number, default=None)

    def claim(self, worker: int) -> Operation | None:
        """Waits for an operation and notes its Start, or answers none once all are started."""
        with self.turn:
            while not self.stopped and self.started < len(self.plan.operations):
                operation, at = self.ready(), self.now()
                if operation and self.is_due(operation, at):
                    self.start(operation, worker, at)
                    return operation
                self.turn.wait((operation.due - at) / 1000 if operation else None)
            return None

    def start(self, operation: Operation, worker: int, at: int) -> None:
        first, last = self.plan.forums
        self.places[operation.lane] += 1
        self.busy[operation.lane] = first <= operation.lane < last
        self.started += 1
        self.late = at - operation.due
        self.events.append(f"S|{operation.number}|{worker}|{at}")
        self.turn.notify_all()

    def finish(self, operation: Operation, worker: int, front: int = 0, rows: int = 0) -> int:
        """Notes a Finish, and answers how many events there were before it."""
        with self.turn:
            line = f"F|{operation.number}|{worker}|{self.now()}|{front}|{rows}"
            self.events.append(line)
            self.finished.add(operation.number)
            self.busy[operation.lane] = False
            self.turn.notify_all()
            return len(self.events) - 1

    def count(self) -> int:
        """How many events there are."""
        with self.turn:
            return len(self.events)

    def halt(self, worker: int) -> None:
        """Notes that a worker stops for good. No further operation is given to any."""
        with self.turn:
            self.events.append(f"H|{worker}")
            self.stopped = True
            self.turn.notify_all()

    def text(self) -> str:
        with self.turn:
            return "".join(f"{it}\n" for it in [self.header, *self.events])
