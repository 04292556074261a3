"""The calls on task sets and traces."""

from __future__ import annotations

import struct
from fractions import Fraction
from typing import Dict, Iterable, List, Optional

from ._arrays import Rows, row_view
from ._commands import counterexample
from ._errors import Refused, Status
from ._given import (
    A_SCALE_HELPS, MOST_32, MOST_64, ROW_BYTES, WHY_OF_DEMANDS, Names, given_demands, given_row, given_rows, given_tasks, number,
    parts_of, row_fault,
)
from ._library import CDemandTest, CTest, CVerdict, library, u32
from ._trace import Trace
from ._values import Demand, DemandVerdict, Row, Rule, Task, Test, Verdict, Why


_MOST_ROWS = 2_000_000
_HINTS = {**A_SCALE_HELPS, Status.FULL: f": judge takes at most {_MOST_ROWS:,} rows, and a Monitor takes any number"}
_RULES = (None, Rule.PLAIN, Rule.VIRTUAL)
_fields_of_test = struct.Struct("2I9Q").unpack


def check(tasks: Iterable[Task]) -> Test:
    """The published test of a set. If it does not admit the set, ``rule`` is None.

    A set has at most 128 tasks, and the least common multiple of its periods is at most 2^60 ticks; another one is :class:`Refused`.

    >>> check([Task("a", "low", period=4, low=1), Task("b", "high", period=8, low=2, high=4)]).rule
    <Rule.PLAIN: 1>
    """
    packed, names = given_tasks(tasks)
    test = CTest()
    status = library.check(packed, len(names), test)
    if status:
        raise names.refused(status, test.task)
    return test_of(test)


def test_of(test: CTest) -> Test:
    """What the library found of a set."""
    number_of_rule, _, p, q, lcm, low_top, low, mixed_top, mixed, high_top, high = _fields_of_test(test)
    rule = _RULES[number_of_rule]
    return Test(
        Fraction(low_top << 64 | low, lcm), Fraction(mixed_top << 64 | mixed, lcm), Fraction(high_top << 64 | high, lcm), rule,
        Fraction(p, q) if rule is Rule.VIRTUAL else None,
    )


def stretch(tasks: Iterable[Task]) -> Optional[int]:
    """The greatest percentage of the high budgets, up to 1000, at which the test admits the set; None if there is none.

    >>> stretch([Task("a", "high", period=10, low=2, high=5)])
    219
    """
    packed, names = given_tasks(tasks)
    percent, task = u32(), u32()
    status = library.stretch(packed, len(names), percent, task)
    if status == Status.NO_PERCENTAGE:
        return None
    if status:
        raise names.refused(status, task.value)
    return percent.value


def partition(tasks: Iterable[Task], processors: int) -> List[List[str]]:
    """The names of the tasks on each of 1 to 16 processors, by first fit with the published test.

    >>> partition([Task("a", "low", 2, 1), Task("b", "low", 4, 3), Task("c", "low", 4, 2)], 2)
    [['a', 'c'], ['b']]
    """
    packed, names = given_tasks(tasks)
    most, on, task = number(processors, MOST_32, "processors"), (u32 * len(names))(), u32()
    status = library.partition(packed, len(names), most, on, task)
    if status:
        raise names.refused(status, task.value)
    parts: List[List[str]] = [[] for _ in range(most)]
    for name, processor in zip(names.in_order, on):
        parts[processor - 1].append(name)
    return parts


def accept(first: int, sets: int, tasks: int) -> Dict[int, int]:
    """How many of ``sets`` random sets of ``tasks`` tasks have a stretch of at least 100, 110 and so on to 200 percent.

    The sets are those generated from the numbers ``first``, ``first + 1`` and so on, so equal calls give equal counts.

    >>> accept(1, 50, 8)[100]
    50
    """
    counts = (u32 * 11)()
    status = library.accept(
        number(first, MOST_64, "first"), number(sets, MOST_32, "sets"), number(tasks, MOST_32, "tasks"), counts
    )
    if status:
        raise Refused(Status(status))
    return {100 + 10 * place: count for place, count in enumerate(counts)}


def verdict_of(names: Names, verdict: CVerdict) -> Verdict:
    """The verdict with the tasks' names."""
    return Verdict(
        why=Why(verdict.why) if verdict.why else None,
        place=verdict.place or None,
        late=verdict.late,
        first=names.job(verdict.task, verdict.count),
    )


def _packed(rows: Rows, names: Names) -> bytes:
    """The rows as the library takes them. A trace of more rows than it takes is cut, to one row too many."""
    view = row_view(rows)
    if view is not None:
        return view.tobytes()
    if isinstance(rows, Trace) and len(rows) > _MOST_ROWS:
        return given_row(rows[0], names) * (_MOST_ROWS + 1)
    if isinstance(rows, Trace):
        return b"".join([given_row(row, names) * times for row, times in rows.runs])
    return given_rows(rows, names)  # type: ignore[arg-type]


def judge(tasks: Iterable[Task], rows: Rows, scale: Optional[Fraction] = None) -> Verdict:
    """The verdict on a trace, the oldest row first.

    The rule is that of the published test, or EDF-VD with ``scale``, above 0 and at most 1, whether or not the test holds. So a set
    that is not admitted needs a scale. docs/RULES.md in the repository states the rules that rows must follow, and docs/LABORATORY.md
    has a simulator whose rows follow them; :class:`Why` lists what can be wrong. The rows are ``Row`` objects, or an array of
    ``edfvd_row``, such as a structured array of numpy with the fields event, task (its number, from 1) and count, or a
    :class:`Trace`: ``Trace([(row, n)])`` takes runs, which are a row and how many equal ticks it stands for. There are at most
    2,000,000 rows, each tick of a run counted; a :class:`Monitor` takes any number.

    Plain EDF has no levels. To judge its trace, also of a set that the test admits with a scale, declare each task ``"low"`` with its
    greatest budget, and give the scale 1.

    >>> from edfvd import Event
    >>> control = [Task("ctl", "high", period=10, low=2, high=6), Task("log", "low", period=10, low=5)]
    >>> judge(control, [Row(Event.KEPT, "ctl", 1), Row(Event.IDLE)])
    Verdict(why=<Why.IDLE_PENDING: 7>, place=2, late=0, first=None)
    """
    packed, names = given_tasks(tasks)
    trace, verdict = _packed(rows, names), CVerdict()
    status = library.judge(packed, len(names), trace, len(trace) // ROW_BYTES, *parts_of(scale), verdict)
    if status:
        raise _refused_trace(names, status, verdict.task, trace)
    return verdict_of(names, verdict)


def _refused_trace(names: Names, status: int, task: int, packed: bytes) -> Refused:
    """The exception for a trace that the library refused to judge; if it is because of a row, the message names it."""
    found = row_fault(status, packed, names)
    if found is None:
        return names.refused(status, task, more=_HINTS.get(Status(status), ""))
    return Refused(Status(status), words=f"row {found[0] + 1}: {found[1]}")


def demand(tasks: Iterable[Demand]) -> DemandVerdict:
    """Whether plain EDF schedules tasks with deadlines of at most their periods, by the processor-demand test.

    >>> demand([Demand("a", period=4, deadline=2, budget=1), Demand("b", period=6, deadline=3, budget=2)]).schedulable
    True
    """
    packed, names = given_demands(tasks)
    test = CDemandTest()
    status = library.demand(packed, len(names), test)
    if status:
        raise names.refused(status, test.task, why=WHY_OF_DEMANDS)
    if not test.past:
        return DemandVerdict(True, test.length, None, ())
    return DemandVerdict(False, test.length, test.demand, counterexample(packed, names))
