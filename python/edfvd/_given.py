"""What a caller passes: read once, checked, and packed as the library takes it.

A caller's list may change while it is read, by another thread or by a property of an element. So each iterable is copied before
it is measured, and each attribute is read once; from there on only the copies are used. What the library reads is ``bytes``.

A task is packed when it is made, and rows are packed as wholes. If one of them has anything in it that is not as it should be, all
are read again element by element, to find the value to name or to convert.
"""

from __future__ import annotations

import math
import operator
import reprlib
import struct
from fractions import Fraction
from numbers import Rational
from typing import Any, Dict, Iterable, List, Mapping, Optional, Set, SupportsFloat, Tuple, TypeVar

from ._errors import Refused, Status
from ._values import LEVELS, Demand, Event, Job, Row, Task, is_name

_Value = TypeVar("_Value")
MOST_32 = 2**32 - 1
MOST_64 = 2**64 - 1
_EVENTS = {event.value: event for event in Event}


def _of(what: str, task: Optional[str]) -> str:
    """What an error message is about."""
    return what if task is None else f"task {task}: {what}"


def _kind(value: object) -> str:
    return type(value).__name__


def whole_number(value: object, what: str, task: Optional[str]) -> int:
    """The value as a plain int, if it can stand for one, as numpy's integers can."""
    try:
        if _kind(value) in ("bool", "bool_"):  # Python's, and numpy's under either of its names
            raise TypeError
        return int.__index__(operator.index(value))  # type: ignore[arg-type]
    except TypeError:
        raise TypeError(f"{_of(what, task)} must be a whole number, not {_kind(value)}") from None


def shown(whole: int) -> str:
    """The number as a message shows it."""
    return str(whole) if whole.bit_length() <= 128 else f"a number of {whole.bit_length()} bits"


def number(value: object, most: int, what: str, task: Optional[str] = None, least: int = 0) -> int:
    """The value, if it is a whole number from ``least``, which is 0 without it, to ``most``."""
    whole = value if type(value) is int else whole_number(value, what, task)
    if least <= whole <= most:
        return whole
    raise ValueError(f"{_of(what, task)} is {shown(whole)}, which is not from {least} to {most}")


def real(value: object, what: str) -> float:
    """The value as a float, if it is a finite number, as those of numpy and fractions are, and neither a bool nor a text."""
    try:
        if isinstance(value, (str, bytes)) or _kind(value) in ("bool", "bool_") or not isinstance(value, SupportsFloat):
            raise TypeError
        found = float(value)
    except TypeError:
        raise TypeError(f"{what} must be a number, not {_kind(value)}") from None
    except OverflowError:
        raise ValueError(f"{what} is beyond the range of a float") from None
    if not math.isfinite(found):
        raise ValueError(f"{what} is {found}, and not a finite number")
    return found


def reals(values: Iterable[object], what: str) -> List[float]:
    """The values as floats, if each of them is a finite number."""
    if isinstance(values, (str, bytes)) or not isinstance(values, Iterable):
        raise TypeError(f"{what} must be a sequence of numbers, not {_kind(values)}")
    return [real(value, f"an element of {what}") for value in copied(values, what)]


def text(value: object, what: str) -> str:
    """The value as a plain str, if it is one."""
    if type(value) is str:
        return value
    if not isinstance(value, str):
        raise TypeError(f"{what} must be a str, not {_kind(value)}")
    return str.__str__(value)


def task_name(value: object) -> str:
    """The value, if it has the form of a task's name, which is that of task files."""
    name = text(value, "a task's name")
    if not is_name(name):
        raise ValueError(f"{reprlib.repr(name)} is no name: a name is 1 to 32 ASCII letters, digits, '_' or '-'")
    return name


def _all_are(kind: type, values: Iterable[object]) -> bool:
    """Whether each of the values is of exactly this type."""
    return set(map(type, values)) <= {kind}


def _field(value: object, field: str) -> Any:
    """The field of a value that was made without ``__init__``, perhaps, and then has none."""
    try:
        return getattr(value, field)
    except AttributeError:
        raise TypeError(f"a {_kind(value)} has no {field}") from None


UNKNOWN: Dict[object, int] = {None: 0}
# What a message says of a status beyond its words: the limit, and what stays within it.
_WHY: Mapping[Status, str] = {
    Status.PERIODS: ": with the period of this task the least common multiple of the periods is above 2^60"
    " (edfvd.laboratory.periods draws periods for which it is not)",
}
WHY_OF_DEMANDS: Mapping[Status, str] = {
    Status.PERIODS: ": with the period of this task the least common multiple of the periods is above 500,000",
}


class Names:
    """The names of a set's tasks in order, all of them different. The first one has the number 1."""

    __slots__ = ("in_order", "known")

    def __init__(self, in_order: List[str]) -> None:
        self.in_order = in_order
        # The number of each name once it has been asked for, and 0 for None.
        self.known = UNKNOWN

    def __len__(self) -> int:
        """How many tasks the set has."""
        return len(self.in_order)

    @property
    def numbers(self) -> Dict[object, int]:
        """The number of each name, and 0 for None."""
        if len(self.known) <= len(self.in_order):
            self.known = {None: 0, **{name: number for number, name in enumerate(self.in_order, 1)}}
        return self.known

    def name(self, task: int) -> Optional[str]:
        """The name of the task of this number."""
        return self.in_order[task - 1] if 1 <= task <= len(self.in_order) else None

    def number(self, task: object, what: str = "task") -> int:
        """The number of the task of this name; ``what`` begins the error message if there is none."""
        name = text(task, "a task's name")
        found = self.numbers.get(name)
        if found is None:
            raise ValueError(f"{what} {reprlib.repr(name)} is not in the set")
        return found

    def job(self, task: int, count: int) -> Optional[Tuple[str, int]]:
        """A job, as its task's name and its count."""
        name = self.name(task)
        return None if name is None else (name, count)

    def refused(self, status: int, task: int = 0, at: int = 0, more: str = "", why: Mapping[Status, str] = _WHY) -> Refused:
        """The exception for a call that the library refused because of this task, if any. After the status in words, its message says
        ``why``, and it ends with ``more``."""
        found = Refused(Status(status))
        return Refused(found.status, self.name(task), at, f"{found}{why.get(found.status, '')}{more}")


def copied(values: Iterable[_Value], what: str) -> Tuple[_Value, ...]:
    """A copy of the values, which is read from there on; ``what`` begins the error message if they are not iterable."""
    try:
        return tuple(values)
    except TypeError as error:
        try:
            iter(values)
        except TypeError:
            raise TypeError(f"{what}: {error}") from None
        raise
    except NotImplementedError:
        array: object = values
        if isinstance(array, memoryview):  # of structs, which Python does not read
            raise TypeError(f"an array of {array.format} is no list of values") from None
        raise


# ---- Task sets ----

def given_tasks(tasks: Iterable[Task]) -> Tuple[bytes, Names]:
    """The tasks as the library takes them, and their names, which stay in Python."""
    given = copied(tasks, "tasks")
    packed = _packed_tasks(given) if _all_are(Task, given) else None
    return packed or _careful_tasks(given)


def _packed_tasks(tasks: Tuple[Task, ...]) -> Optional[Tuple[bytes, Names]]:
    """The tasks and their names, or None if one of them was not packed when it was made, or two have one name."""
    try:
        packed = b"".join([task._packed for task in tasks])  # type: ignore[misc]
        names = [task.name for task in tasks]
    except (AttributeError, TypeError):
        return None
    return (packed, Names(names)) if len(set(names)) == len(names) else None


def _distinct(names: List[str]) -> Names:
    """The names, if they differ."""
    if len(set(names)) != len(names):
        twice = next(name for place, name in enumerate(names) if name in names[:place])
        raise ValueError(f"two tasks have the name {twice}")
    return Names(names)


def _careful_tasks(tasks: Tuple[object, ...]) -> Tuple[bytes, Names]:
    """The tasks and their names, by each field in turn; the first value that is wrong is named."""
    names: List[str] = []
    fields: List[int] = []
    for task in tasks:
        if not isinstance(task, Task):
            raise TypeError(f"a task set has Task objects, not {_kind(task)}")
        name, level, period, low, high = (_field(task, field) for field in ("name", "level", "period", "low", "high"))
        name = task_name(name)
        level_number = _level(level, name)
        period = number(period, MOST_32, "the period", name)
        low = number(low, MOST_32, "the low budget", name)
        high = _high_budget(level_number, low, name) if high is None else number(high, MOST_32, "the high budget", name)
        names.append(name)
        fields += (level_number, period, low, high)
    return struct.pack(f"{len(fields)}I", *fields), _distinct(names)


def _level(value: object, name: str) -> int:
    """The number of a level, if it is one."""
    level = text(value, f"task {name}: the level")
    if level not in LEVELS:
        raise ValueError(f"task {name}: the level is {reprlib.repr(level)}, and not 'low' or 'high'")
    return LEVELS[level]


def _high_budget(level: int, low: int, name: str) -> int:
    """The high budget of a task that gives none: that of a low task is its low budget."""
    if level == LEVELS["high"]:
        raise ValueError(f"task {name}: a high task needs its high budget")
    return low


def given_demands(tasks: Iterable[Demand]) -> Tuple[bytes, Names]:
    """The tasks as the library takes them, and their names."""
    names: List[str] = []
    fields: List[int] = []
    for task in copied(tasks, "tasks"):
        if not isinstance(task, Demand):
            raise TypeError(f"a demand test takes Demand objects, not {_kind(task)}")
        name = task_name(_field(task, "name"))
        fields += (number(_field(task, field), MOST_32, f"the {field}", name) for field in ("period", "deadline", "budget"))
        names.append(name)
    return struct.pack(f"{len(fields)}I", *fields), _distinct(names)


# ---- Rows ----

ROW_BYTES = 12
packed_row = struct.Struct("3I").pack


def given_row(row: Row, names: Names) -> bytes:
    """The row as the library takes it."""
    if type(row) is Row:
        try:
            event, task, count = row.event, row.task, row.count
            if type(event) is Event and type(count) is int and (type(task) is str or task is None):
                return packed_row(event, names.known[task], count)
        except (AttributeError, KeyError, struct.error):
            pass
    return packed_row(*_careful_row(row, names))


def given_rows(rows: Iterable[Row], names: Names) -> bytes:
    """The rows as the library takes them."""
    given = copied(rows, "rows")
    packed = _packed_rows(given, names.numbers) if _all_are(Row, given) else None
    if packed is not None:
        return packed
    return b"".join([packed_row(*_careful_row(row, names)) for row in given])


def _packed_rows(rows: Tuple[Row, ...], numbers: Dict[object, int]) -> Optional[bytes]:
    """The rows, or None if some field is not as most are: of a plain type, in range, and of a task of the set."""
    fields: List[Any] = [0] * (3 * len(rows))
    try:
        events, tasks, counts = [row.event for row in rows], [row.task for row in rows], [row.count for row in rows]
        if _all_are(Event, events) and set(map(type, tasks)) <= {str, type(None)} and _all_are(int, counts):
            fields[::3], fields[1::3], fields[2::3] = events, [numbers[task] for task in tasks], counts
            return struct.pack(f"{len(fields)}I", *fields)
    except (AttributeError, KeyError, struct.error):
        pass
    return None


def checked_row(row: object) -> Row:
    """The value, if it is a row with all of its fields."""
    _fields_of_row(row)
    return row  # type: ignore[return-value]


def _fields_of_row(row: object) -> List[Any]:
    """The event, the task and the count of a row."""
    if not isinstance(row, Row):
        raise TypeError(f"a trace has Row objects, not {_kind(row)}")
    return [_field(row, field) for field in ("event", "task", "count")]


def _careful_row(row: object, names: Names) -> Tuple[int, int, int]:
    """A row's event, the number of its task, and its count; the first value that is wrong is named."""
    event, task, count = _fields_of_row(row)
    known = _event(event)
    of_task = 0 if task is None else names.number(task, "a row's task")
    return known, of_task, number(count, MOST_32, "a row's count")


def _event(value: object) -> Event:
    """An event, which may be given as its number."""
    if not hasattr(value, "__index__") or _kind(value) in ("bool", "bool_"):
        raise TypeError(f"a row's event must be an Event, such as Event.KEPT, not {_kind(value)}")
    whole = whole_number(value, "a row's event", None)
    if whole not in _EVENTS:
        raise ValueError(f"a row's event is {shown(whole)}, which is no event: those are {min(_EVENTS)} to {max(_EVENTS)}")
    return _EVENTS[whole]


def row_fault(status: int, packed: bytes, names: Names, times: int = 1) -> Optional[Tuple[int, str]]:
    """Which of the rows, from 0, is the first that the library refuses with this status, and what is wrong with it.

    Each of the rows is given this many times.
    """
    find = {Status.ARGUMENT: _fault_of_kind, Status.NO_TASK: _fault_of_task}.get(Status(status))
    for place, (event, task, count) in enumerate(struct.iter_unpack("3I", packed) if find else ()):
        words = find(event, task, count, len(names), times) if find else ""
        if words:
            return place, words
    return None


def _fault_of_kind(number_of_event: int, task: int, count: int, tasks: int, times: int) -> str:
    """What is wrong with a row, whatever the tasks of the set are; empty if nothing is."""
    event = _EVENTS.get(number_of_event)
    if event is None:
        return f"{number_of_event} is no event"
    if event in (Event.HELD, Event.GIVEN):
        return f"{event} is no event of a trace"
    if event is Event.IDLE and (task or count):
        return f"an idle row has no {'task' if task else 'count'}"
    if times == 0:
        return "times is 0"
    return f"{event} comes once, and not {times} times" if times > 1 and event not in (Event.MORE, Event.IDLE) else ""


def _fault_of_task(number_of_event: int, task: int, count: int, tasks: int, times: int) -> str:
    """What is wrong with the task of a row of a set of this many tasks; empty if nothing is."""
    if number_of_event == Event.IDLE or 1 <= task <= tasks:
        return ""
    event = _EVENTS.get(number_of_event, number_of_event)
    return f"{task} is not the number of a task, which is from 1 to {tasks}" if task else f"{event} needs a task"


# How the message goes on if no rule is known for a set: judge and Monitor take each scale, whether or not it holds.
A_SCALE_HELPS = {
    status: "; with a scale of your own, such as scale=Fraction(1), rows are judged all the same"
    for status in (Status.NOT_ADMITTED, Status.PERIODS)
}


# ---- Other values ----

def given_jobs(jobs: Iterable[Job]) -> List[Tuple[str, int, int]]:
    """The jobs with their releases and needs, in the order of their releases; those of equal releases keep their order."""
    found = []
    for job in copied(jobs, "jobs"):
        if not isinstance(job, Job):
            raise TypeError(f"a work list has Job objects, not {_kind(job)}")
        release, need = number(job.release, MOST_64, "a release"), number(job.need, MOST_64, "a need")
        found.append((task_name(job.task), release, need))
    return sorted(found, key=lambda job: job[1])


def parts_of(scale: Optional[Fraction]) -> Tuple[int, int]:
    """The scale's numerator and denominator; zeros for None, which stands for the rule of the published test."""
    if scale is None:
        return 0, 0
    if not isinstance(scale, Rational) or isinstance(scale, bool):
        raise TypeError(f"the scale must be a Fraction, not {_kind(scale)}")
    factor = Fraction(scale)
    if not 0 < factor <= 1:
        raise ValueError("the scale is not above 0 and at most 1")
    numerator = number(factor.numerator, MOST_64, "the scale's numerator")
    return numerator, number(factor.denominator, MOST_64, "the scale's denominator")


def given_bytes(value: bytes, what: str) -> bytes:
    """A copy of the bytes: no number, which would stand for that many zeros, and no view, whose length may count other things."""
    if not isinstance(value, (bytes, bytearray)):
        raise TypeError(f"{what} must be bytes, not {_kind(value)}")
    return bytes(value)


def given_text(value: str, what: str) -> bytes:
    """The text in UTF-8, in which half of a surrogate pair has no bytes."""
    try:
        return value.encode()
    except UnicodeEncodeError as error:
        raise ValueError(f"{what} is no text that UTF-8 has: {error.reason}") from None


def given_words(words: Iterable[str]) -> List[bytes]:
    """The words as the library takes them."""
    if isinstance(words, (str, bytes)):
        raise TypeError(f"words must be a list of str, not {_kind(words)}")
    encoded = [given_text(text(word, "a word"), "a word") for word in copied(words, "words")]
    if any(0 in word for word in encoded):
        raise ValueError("a word has a 0 byte in it")
    return encoded
