"""What may change in a set, and by how much, with the published test still admitting it."""

from __future__ import annotations

from dataclasses import dataclass
from fractions import Fraction
from numbers import Rational
from typing import Iterable, List, Optional

from ._errors import Status
from ._given import given_tasks
from ._library import CBudgets, CScaleRange, library, u32, u64
from ._values import Task

_STEPS = 1_000_000


@dataclass(frozen=True)
class GreatestBudgets:
    """The greatest budgets of a task with which the test admits the set, if one of them changes and all else stays.

    ``low`` is None if the test admits the set with no low budget of at least 1. ``high`` is None if it admits the set with no
    high budget of at least the low one, and for a low task, which has one budget.
    """

    task: str
    low: Optional[int]
    high: Optional[int]


@dataclass(frozen=True)
class ScaleRange:
    """The scales with which EDF-VD holds for a set: those from ``least`` to ``greatest``.

    If no task is high, ``least`` is 0, which is no scale itself.

    >>> Fraction(1, 2) in ScaleRange(Fraction(2, 5), Fraction(4, 5))
    True
    """

    least: Fraction
    greatest: Fraction

    def __contains__(self, scale: Fraction) -> bool:
        if not isinstance(scale, Rational) or isinstance(scale, bool):
            raise TypeError(f"the scale must be a Fraction, not {type(scale).__name__}")
        return 0 < scale and self.least <= scale <= self.greatest


def sensitivity(tasks: Iterable[Task]) -> List[GreatestBudgets]:
    """The greatest budgets of each task, in order, with which the test admits the set if one of them changes.

    The test admits the set with each lower budget too, and refuses it with each greater one. The low budget of a high task is at
    most its high budget, and any other budget at most 4,294,967,295. For a set that is not admitted, each number says how far one
    budget must fall, and None that no change of it will do.

    >>> control = [Task("ctl", "high", period=10, low=2, high=6), Task("log", "low", period=10, low=5)]
    >>> for greatest in sensitivity(control):
    ...     print(greatest)
    GreatestBudgets(task='ctl', low=4, high=8)
    GreatestBudgets(task='log', low=6, high=None)
    """
    packed, names = given_tasks(tasks)
    budgets, task = (CBudgets * len(names))(), u32()
    status = library.sensitivity(packed, len(names), budgets, task)
    if status:
        raise names.refused(status, task.value)
    return [GreatestBudgets(name, most.low or None, most.high or None) for name, most in zip(names.in_order, budgets)]


def scales(tasks: Iterable[Task]) -> Optional[ScaleRange]:
    """The scales with which EDF-VD holds for the set, even if plain EDF does too; None if there is none.

    There is one exactly if the test admits the set. If the test gives a scale, it is the least.

    >>> scales([Task("ctl", "high", period=10, low=2, high=6), Task("log", "low", period=10, low=5)])
    ScaleRange(least=Fraction(2, 5), greatest=Fraction(4, 5))
    """
    packed, names = given_tasks(tasks)
    found, task = CScaleRange(), u32()
    status = library.scales(packed, len(names), found, task)
    if status == Status.NOT_ADMITTED:
        return None
    if status:
        raise names.refused(status, task.value)
    return ScaleRange(Fraction(found.least_p, found.least_q), Fraction(found.greatest_p, found.greatest_q))


def speed(tasks: Iterable[Task]) -> Fraction:
    """The least speed of the processor at which the test admits the set, rounded up to a millionth.

    At speed s a job takes its ticks divided by s, so each load is divided by s. A set with a speed of at most 1 is admitted as it
    is. If U_LL + U_HL and U_HH are at most 1, the speed is at most 4/3, rounded up.

    >>> float(speed([Task("ctl", "high", period=10, low=4, high=8), Task("log", "low", period=10, low=5)]))
    1.1217
    """
    packed, names = given_tasks(tasks)
    millionths, task = u64(), u32()
    status = library.speed(packed, len(names), millionths, task)
    if status:
        raise names.refused(status, task.value)
    return Fraction(millionths.value, _STEPS)
