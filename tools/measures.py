"""What a page about a run shows beyond the numbers of `snb latency`: over time, and by worker.

usage: from measures import buckets, workers

It is not proved. A bucket is a span of the run; of each it keeps numbers alone.
"""

from array import array
from typing import NamedTuple

from history import History
from schedule import Schedule

BUCKETS = 60


class Bucket(NamedTuple):
    """From when on, in milliseconds; finishes a second; lateness of what started, if any did."""

    begin: int
    rate: float
    half: int | None
    most: int | None


class Worker(NamedTuple):
    number: int
    operations: int
    rate: float
    # How much of the run it had something in hand, in hundredths.
    busy: float


def nice(least: float) -> int:
    """The least of 1, 2, 5, 10, 20, .. that is no less."""
    scale = 1
    while True:
        for one in (1, 2, 5):
            if one * scale >= least:
                return one * scale
        scale *= 10


def length(history: History) -> int:
    return max(history.last, 1)


def buckets(schedule: Schedule, history: History) -> tuple[int, list[Bucket]]:
    """How long a bucket is, and all of them."""
    all_of = length(history)
    width = nice(all_of / BUCKETS)
    count = all_of // width + 1
    finishes = [0] * count
    late = [array("q") for _ in range(count)]
    for number in range(len(schedule)):
        started, finished = history.started[number], history.finished[number]
        if started >= 0:
            late[started // width].append(started - schedule.due(number))
        if finished >= 0:
            finishes[finished // width] += 1
    found = []
    for at, values in enumerate(late):
        ordered = sorted(values)
        half = ordered[(len(ordered) + 1) // 2 - 1] if ordered else None
        # The last may be cut short by the end of the run.
        seconds = min(width, all_of - at * width) / 1000 if at + 1 == count else width / 1000
        rate = finishes[at] / max(seconds, 0.001)
        found.append(Bucket(at * width, rate, half, ordered[-1] if ordered else None))
    return width, found


def workers(schedule: Schedule, history: History) -> list[Worker]:
    counts = [0] * history.header.workers
    busy = [0] * history.header.workers
    for number in range(len(schedule)):
        worker, finished = history.worker[number], history.finished[number]
        if worker >= 0 and finished >= 0:
            counts[worker] += 1
            busy[worker] += finished - history.started[number]
    all_of = length(history)
    return [
        Worker(at, count, count * 1000 / all_of, 100 * spent / all_of)
        for at, (count, spent) in enumerate(zip(counts, busy))
    ]
