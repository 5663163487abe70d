"""How much of what may be wrong with a run an accepted log could have shown.

usage: from reach import accepted

It is not proved.
"""

from array import array
from itertools import accumulate

from holds import Waits
from told import Told

# Which inserts add the rows that a query counts, and how many rows it gives at most.
COUNTS = {
    1: ("AddPerson AddFriend", 20),
    2: ("AddFriend AddPost AddComment", 20),
    7: ("LikePost LikeComment", 20),
    8: ("AddComment", 20),
    9: ("AddFriend AddPost AddComment", 20),
    11: ("AddPerson AddFriend", 10),
    13: ("", 1),
}


def at_hand(told: Told, numbers: list[int]) -> array:
    """After each event, how many of some operations are started and not finished."""
    change = array("b", [0]) * (told.history.count + 1)
    for number in numbers:
        change[told.history.start[number]] += 1
        change[told.history.finish[number]] -= 1
    return array("i", accumulate(change))


def accepted(told: Told) -> None:
    say_waits(told)
    say_counts(told)


def say_waits(told: Told) -> None:
    """How many inserts the dependency rule could have caught."""
    schedule, history = told.schedule, told.history
    waits, dependencies = Waits(schedule, history), at_hand(told, list(schedule.dependencies))
    dependents = [it for it in range(len(schedule)) if schedule.is_dependent(it)]
    found = [(it, wait[0]) for it in dependents if (wait := waits.of(it))]
    waited = sum(until > schedule.due(it) for it, until in found)
    # It may be a forum itself, and is then at hand too.
    forums = set(schedule.dependencies)
    beside = sum(dependencies[history.start[it]] > (it in forums) for it in dependents)
    told.say("what the log could have shown of the dependency rule:")
    told.say(f"  {len(dependents):,} inserts are dependents", dependents=len(dependents))
    told.say(f"  {len(found):,} of them wait for a person or a forum of the streams", waiting=len(found))
    told.say(f"  {waited:,} had to wait for one past the moment when they were due", waited=waited)
    told.say(f"  {beside:,} started while a person or a forum was being inserted", beside=beside)
    most = max(at_hand(told, list(range(len(schedule)))), default=0)
    told.say(f"  at most {most} operations were at hand at once", most=most)


def say_counts(told: Told) -> None:
    """How many inserts a wrong front or a lost insert would have shown by a count of rows."""
    schedule, history = told.schedule, told.history
    if history.header.version == 1:
        told.say("the log is of version 1 and has no counts: an audit says nothing of the answers")
        return
    reads = full = 0
    # Of each kind of insert the last front of a read that counts such rows and could have more.
    fronts: dict[str, int] = {}
    for number in range(len(schedule)):
        if schedule.is_read(number):
            kinds, most = COUNTS[int(schedule.name(number).removeprefix("IC"))]
            reads += 1
            full += history.rows[number] >= most
            if history.rows[number] < most:
                for kind in kinds.split():
                    fronts[kind] = max(fronts.get(kind, 0), history.front[number])
    inserts = [it for it in range(len(schedule)) if not schedule.is_read(it)]
    shown = sum(history.finish[it] < fronts.get(schedule.name(it), 0) for it in inserts)
    told.say("what it could have shown of the counts of rows:")
    told.say(f"  {full:,} of {reads:,} reads gave their most rows, 20, of IC11 10 and of IC13 1", full=full)
    told.say(
        f"  {shown:,} of {len(inserts):,} inserts are of a kind that a later read with fewer rows counts",
        reads=reads,
        shown=shown,
    )
    told.say("  the counts say nothing of the others, nor of what rows have in their cells")
