"""Task sets, jobs, rows and answers."""

from __future__ import annotations

import enum
import re
import struct
from dataclasses import dataclass
from fractions import Fraction
from typing import Any, Dict, Literal, NamedTuple, Optional, Set, Tuple


class Named(enum.IntEnum):
    """A number with a name, which is its text in every version of Python; ``f"{value:d}"`` is the number."""

    def __str__(self) -> str:
        return self.name

    def __format__(self, form: str) -> str:
        """The name, or the number for a form of numbers, such as ``d`` and ``03x``."""
        return format(int(self) if form[-1:] in _FORMS_OF_NUMBERS else self.name, form)


class Rule(Named):
    """How jobs are ordered.

    - ``PLAIN``: by their deadlines. There are no modes, so no row is ``OVER`` or ``DROPPED``, and no job is discarded.
    - ``VIRTUAL``: in low mode high jobs by their virtual deadlines, and all others by their deadlines.
    """

    PLAIN = 1
    VIRTUAL = 2


class Event(Named):
    """What came of an event, and what a row records; the numbers are those of ``edfvd.h``.

    - ``KEPT``: a release whose job is pending from now on.
    - ``DROPPED``: a release of a low task in high mode. Its job never runs, and has a count all the same. Never under ``Rule.PLAIN``.
    - ``HELD``: a release while a tick is in progress, which is kept or dropped after it. Answers of a scheduler have it, and no row.
    - ``GIVEN``: the next tick is granted to the job. Answers of a scheduler have it, and no row.
    - ``MORE``: a tick of a job that stays pending.
    - ``DONE``: the last tick of a job that is done.
    - ``STOP``: the tick in which a job uses up its own budget without being done, so it ends. A high task's own budget is ``high``.
    - ``OVER``: the tick in which a high job uses up its low budget in low mode and is neither done nor stopped. The job stays pending,
      the mode becomes high, and the pending low jobs are discarded, which has no row. Never under ``Rule.PLAIN``.
    - ``IDLE``: a tick without a pending job, after which the mode is low.
    """

    KEPT = 1
    DROPPED = 2
    HELD = 3
    GIVEN = 4
    MORE = 5
    DONE = 6
    STOP = 7
    OVER = 8
    IDLE = 9


class Why(Named):
    """Which rule a row breaks.

    - ``TOO_SOON``: a release comes less than a period after the one before it of its task, kept or dropped.
    - ``WRONG_COUNT``: the count of a release is not one more than that of the task's release before it; the first one is 1.
    - ``WRONG_KEPT``: a release is ``KEPT`` although its task is low and the mode is high, or ``DROPPED`` although not.
    - ``NOT_PENDING``: a tick goes to a job that is not pending: not released, dropped, ended or discarded.
    - ``NOT_LEAST``: a tick goes to a pending job although another one has an earlier deadline. In low mode under ``Rule.VIRTUAL``,
      the virtual deadline of a high job counts.
    - ``WRONG_HOW``: the right job has the tick, and ``Row.event`` says wrongly how it ends: ``MORE``, ``DONE``, ``STOP`` or ``OVER``.
      ``Monitor.would_fit`` says of each of these whether it fits.
    - ``IDLE_PENDING``: a tick is idle although a job is pending.
    """

    TOO_SOON = 1
    WRONG_COUNT = 2
    WRONG_KEPT = 3
    NOT_PENDING = 4
    NOT_LEAST = 5
    WRONG_HOW = 6
    IDLE_PENDING = 7


LEVELS = {"low": 0, "high": 1}
# The last letters of forms that show numbers; no form at all shows the name.
_FORMS_OF_NUMBERS = tuple("bcdeEfFgGnoxX%")
is_name = re.compile("[A-Za-z0-9_-]{1,32}").fullmatch
# Names that have the right form: most sets have the names of the set before. Emptied when it has too many.
_known: Set[str] = set()
_MOST_KNOWN = 10_000
_four_numbers = struct.Struct("4I").pack


def _is_known(name: str) -> bool:
    """Whether the name has the right form; if so, it is known from now on."""
    if not is_name(name):
        return False
    if len(_known) > _MOST_KNOWN:
        _known.clear()
    _known.add(name)
    return True


def _pack(name: object, level: object, period: object, low: object, high: object) -> Optional[bytes]:
    """A task as the library takes it, or None if some field is not as most are: of a plain type, and in range.

    No field is compared or hashed before its type is known, since that could run code of the caller.
    """
    if not (type(name) is type(level) is str and type(period) is type(low) is int):
        return None
    if high is None:
        if level != "low":
            return None
        high = low
    elif type(high) is not int:
        return None
    try:
        return _four_numbers(LEVELS[level], period, low, high) if name in _known or _is_known(name) else None
    except (KeyError, struct.error):
        return None


class _WithPacked:
    """A value that keeps what the library takes for it, which is None if its fields are to be read each time."""

    __slots__ = ("_packed",)

    _packed: Optional[bytes]


@dataclass(frozen=True, init=False)
class Task(_WithPacked):
    """A task: its level, ``"low"`` or ``"high"``, its period and its budgets in ticks.

    A high task needs both budgets. A low task has one, ``low``; if ``high`` is given too, it must be equal. The name has the
    form that files allow: 1 to 32 ASCII letters, digits, ``_`` or ``-``. Fields are checked by the calls that take the task.
    """

    name: str
    level: Literal["low", "high"]
    period: int
    low: int
    high: Optional[int] = None

    def __init__(self, name: str, level: Literal["low", "high"], period: int, low: int, high: Optional[int] = None) -> None:
        fields = self.__dict__
        fields["name"], fields["level"] = name, level
        fields["period"], fields["low"], fields["high"] = period, low, high
        object.__setattr__(self, "_packed", _pack(name, level, period, low, high))

    def __getstate__(self) -> Dict[str, Any]:
        return self.__dict__

    def __setstate__(self, fields: Dict[str, Any]) -> None:
        self.__dict__.update(fields)
        object.__setattr__(self, "_packed", _pack(*(fields.get(field) for field in ("name", "level", "period", "low", "high"))))


@dataclass(frozen=True)
class Test:
    """What the published test says of a set: its three loads, and its rule, or None if it is not admitted.

    ``scale`` is the factor for virtual deadlines, under ``Rule.VIRTUAL``.
    """

    __test__ = False  # so that pytest does not take it for a test

    low_low: Fraction
    high_low: Fraction
    high_high: Fraction
    rule: Optional[Rule]
    scale: Optional[Fraction]


@dataclass(frozen=True)
class Row:
    """A row of a trace: a release (``KEPT``, ``DROPPED``), a tick of a job (``MORE`` to ``OVER``), or ``IDLE`` without a job.

    ``task`` is the name of the task, and ``count`` is which of its releases the job is, from 1. ``Rule.PLAIN`` has no modes, so a trace
    under it has no ``DROPPED`` and no ``OVER``. :class:`Event` says when each event comes.
    """

    event: Event
    task: Optional[str] = None
    count: int = 0


@dataclass(frozen=True)
class Verdict:
    """A verdict on a trace.

    In a legal trace ``why`` is None, ``late`` is how many jobs are late, and ``first`` the one of them that was released first,
    as its task and its count. In an illegal one ``why`` is the rule that row number ``place``, from 1, breaks; late jobs are not
    counted then, so ``late`` is 0 and ``first`` is None, whatever the rows before it are.
    """

    why: Optional[Why]
    place: Optional[int]
    late: int
    first: Optional[Tuple[str, int]]

    @property
    def legal(self) -> bool:
        """Whether each row fits."""
        return self.why is None


@dataclass(frozen=True)
class Unfit:
    """The first row that does not fit: the rule that it breaks, and its number, from 1."""

    why: Why
    place: int


@dataclass(frozen=True)
class Late:
    """A job that is late, and its deadline in ticks."""

    task: str
    count: int
    deadline: int


@dataclass(frozen=True)
class Watch:
    """What a monitor has seen: how many ``rows`` have fitted, the clock, how many jobs are ``pending``, and the mode.

    After a row that does not fit, ``legal`` is False, and the numbers and the mode are those before that row.
    """

    rows: int
    legal: bool
    ticks: int
    pending: int
    high_mode: bool


@dataclass(frozen=True)
class Answer:
    """What came of an event: the job, how many ticks it had ``before``, and the tick ``at`` which it happened."""

    event: Event
    task: Optional[str]
    count: int
    before: int
    at: int


@dataclass(frozen=True)
class Look:
    """A scheduler's clock, mode and jobs. A job is its task and its count.

    ``out`` is the job with the tick in progress, and ``chosen`` the pending job that the next grant must name.
    """

    ticks: int
    rows: int
    high_mode: bool
    out: Optional[Tuple[str, int]]
    chosen: Optional[Tuple[str, int]]


class Job(NamedTuple):
    """A job of a work list: its task, its release and the ticks that it needs."""

    task: str
    release: int
    need: int


@dataclass(frozen=True)
class Demand:
    """A task with a deadline of at most its period, for plain EDF, in ticks."""

    name: str
    period: int
    deadline: int
    budget: int


@dataclass(frozen=True)
class DemandVerdict:
    """Whether plain EDF schedules a set.

    If so, ``length`` is the hyperperiod, up to which each length was tested. If not, ``length`` is the least that asks for more
    ticks than it has, ``demand`` is what it asks for, and ``counterexample`` has the lines of a run with a late job.
    """

    schedulable: bool
    length: int
    demand: Optional[int]
    counterexample: Tuple[str, ...]
