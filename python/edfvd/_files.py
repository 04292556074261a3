"""The files of the program: task files, work files and traces, read and written, and what its commands say of them.

Whether a file is one is for the program's own proved readers to say, through :func:`edfvd.ask`; the values then come from
Python's readers of TOML and CSV.
"""

from __future__ import annotations

import csv
import os
import struct
from fractions import Fraction
from typing import Iterable, List, NamedTuple, Optional, Tuple, Union

from . import _picture, _toml
from ._commands import ask, task_file
from ._errors import CommandRefused, Status
from ._given import MOST_32, copied, given_row, given_tasks, given_text, number, parts_of
from ._trace import Trace
from ._values import Event, Job, Row, Task

Path = Union[str, "os.PathLike[str]"]
Text = Union[str, bytes]

MOST_BYTES = 2**24  # of a task file or a work file
MOST_TRACE_BYTES = 2**27
_HEADER = "event,tick,length,task,job,how"
_ILLEGAL = 6
_EVENTS = {(event, how): Event[how.upper() or "IDLE"] for event, how in [
    ("release", "kept"), ("release", "dropped"), ("tick", "more"), ("tick", "done"), ("tick", "stop"), ("tick", "over"), ("idle", ""),
]}
_WORDS = {found: words for words, found in _EVENTS.items()}


class TaskFile(NamedTuple):
    """What a task file has: its tasks, and its own scale, if it has one."""

    tasks: List[Task]
    scale: Optional[Fraction]


# ---- Bytes ----

def _file_name(path: Path) -> str:
    """The path as a str. A number would stand for a file that is open, such as the standard output, and would close it."""
    name = os.fspath(path) if isinstance(path, os.PathLike) else path
    if not isinstance(name, str):
        raise TypeError(f"a path must be a str or an os.PathLike, not {type(path).__name__}")
    try:
        os.fsencode(name)
    except UnicodeEncodeError as error:
        raise ValueError(f"the path is no name of a file: {error.reason}") from None
    return name


def _given(path: Optional[Path], text: Optional[Text], most: int) -> Tuple[str, bytes]:
    """The name and the bytes of what is read: of a file at most one byte more than there may be."""
    if (path is None) == (text is None):
        raise TypeError("either a path or a text is read")
    if path is not None:
        name = _file_name(path)
        with open(name, "rb") as file:
            return name, file.read(most + 1)
    if not isinstance(text, (str, bytes)):
        raise TypeError(f"a text must be a str or bytes, not {type(text).__name__}")
    return "the text", given_text(text, "the text") if isinstance(text, str) else bytes(text)


def _replied(words: List[str], names: Tuple[str, str], first: bytes, second: bytes, *passes: int) -> str:
    """The text of a command that ends with 0 or one of these statuses; the error message of any other is raised."""
    ended, reply = ask(words, first, second)
    text = reply.decode()
    if ended == 0 or ended in passes:
        return text
    for number_of_file, name in zip("12", names):
        text = text.replace(f"file {number_of_file} is longer", f"{name} is longer", 1)
    raise CommandRefused(ended, "; ".join(text.splitlines()))


def _records(text: bytes) -> List[List[str]]:
    """The records of a CSV file after its header, which the program has read."""
    lines = text.decode("utf-8-sig").split("\n")
    return [record for record in csv.reader(lines) if record]


def _written(text: str, path: Optional[Path]) -> str:
    """The text, which is also written to the file, if there is one."""
    if path is not None:
        with open(_file_name(path), "w", encoding="ascii", newline="\n") as file:
            file.write(text)
    return text


# ---- Task files ----

def read_tasks(path: Optional[Path] = None, *, text: Optional[Text] = None) -> TaskFile:
    """The tasks of a task file, or of its text, and its scale if it has one.

    A file that the program refuses raises :class:`CommandRefused` with the program's message, one that cannot be opened
    ``OSError``. Like ``judge`` with a scale, this asks for no bound on the hyperperiod: the calls that need one say so.

    >>> read_tasks(text='task = [{ name = "log", level = "low", period = 10, low = 5 }]').tasks
    [Task(name='log', level='low', period=10, low=5, high=None)]
    """
    name, given = _given(path, text, MOST_BYTES)
    _replied(["judge", "1", "2", "1", "1"], (name, ""), given, f"{_HEADER}\n".encode())
    tree = _toml.loads(given.decode("utf-8-sig"))
    tasks = [Task(table["name"], table["level"], table["period"], table["low"], table.get("high")) for table in tree["task"]]
    return TaskFile(tasks, Fraction(*tree["scale"]) if "scale" in tree else None)


def _task_text(tasks: Iterable[Task], scale: Optional[Fraction]) -> str:
    """The tasks as a task file, with a scale of their own if one is given."""
    packed, names = given_tasks(tasks)
    p, q = parts_of(scale)
    return (f"version = 2\nscale = [{p}, {q}]\n\n" if q else "") + task_file(packed, names)


def write_tasks(tasks: Iterable[Task], path: Optional[Path] = None, *, scale: Optional[Fraction] = None) -> str:
    """The text of a task file with these tasks, and with a scale if one is given; it is written to the file of this path, too.

    Nothing is written if the program would refuse it; then its message is raised as :class:`CommandRefused`.

    >>> print(write_tasks([Task("log", "low", period=10, low=5)]), end="")
    [[task]]
    name = "log"
    level = "low"
    period = 10
    low = 5
    """
    text = _task_text(tasks, scale)
    _replied(["judge", "1", "2", "1", "1"], ("the text", ""), text.encode(), f"{_HEADER}\n".encode())
    return _written(text, path)


# ---- Work files ----

def read_work(tasks: Iterable[Task], path: Optional[Path] = None, *, text: Optional[Text] = None) -> List[Job]:
    """The jobs of a work file, or of its text, for these tasks, as ``run`` reads it: of a set that the test admits.

    >>> read_work([Task("log", "low", period=10, low=5)], text="task,release,need\\nlog,0,5\\n")
    [Job(task='log', release=0, need=5)]
    """
    first = _task_text(tasks, None).encode()
    name, given = _given(path, text, MOST_BYTES)
    _replied(["run", "1", "2", "1"], ("the tasks", name), first, given)
    return [Job(task, int(release), int(need)) for task, release, need in _records(given)[1:]]


# ---- Traces ----

def read_trace(tasks: Iterable[Task], path: Optional[Path] = None, *, text: Optional[Text] = None) -> Trace:
    """The rows of a trace of these tasks, or of its text, in either version. Whether they follow the rules is for ``judge``.

    >>> trace = read_trace([Task("log", "low", 10, 5)], text="event,tick,length,task,job,how\\nidle,0,1000,,,\\n")
    >>> len(trace), trace.runs
    (1000, ((Row(event=<Event.IDLE: 9>, task=None, count=0), 1000),))
    """
    first = _task_text(tasks, None).encode()
    name, given = _given(path, text, MOST_TRACE_BYTES)
    _replied(["judge", "1", "2", "1", "1"], ("the tasks", name), first, given, _ILLEGAL)
    runs: List[Tuple[Row, int]] = []
    for event, _, *rest in _records(given)[1:]:
        length = rest[0] if len(rest) == 4 else "1"
        task, count, how = rest[-3:]
        row = Row(_EVENTS[event, how]) if event == "idle" else Row(_EVENTS[event, how], task, int(count))
        runs.append((row, int(length or 1)))
    return Trace(runs)


def _trace_text(tasks: Iterable[Task], rows: Iterable[Row]) -> str:
    """The rows as a trace of version 2, in as few records as can be."""
    _, names = given_tasks(tasks)
    lines, tick = [_HEADER], 0
    for row, times in Trace.of(rows).runs:
        event, task, count = struct.unpack("3I", given_row(row, names))
        known = Event(event)
        if known not in _WORDS:
            raise ValueError(f"a row's event is {known.name}, which no trace has")
        if (task == 0) != (known is Event.IDLE) or known is Event.IDLE and count:
            raise ValueError("an idle row has no task and no count, and any other row has a task")
        what, how = _WORDS[known]
        is_release = what == "release"
        job = f"{names.name(task)},{count},{how}" if task else ",,"
        lines.append(f"{what},{tick},{'' if is_release else times},{job}")
        tick += 0 if is_release else times
    return "\n".join(lines) + "\n"


def write_trace(tasks: Iterable[Task], rows: Iterable[Row], path: Optional[Path] = None) -> str:
    """The text of a trace with these rows, which is written to the file of this path, too.

    Nothing is written if the program would refuse it as a file; whether the rows follow the rules is for ``judge``.

    >>> print(write_trace([Task("log", "low", 10, 5)], [Row(Event.KEPT, "log", 1), Row(Event.DONE, "log", 1)]), end="")
    event,tick,length,task,job,how
    release,0,,log,1,kept
    tick,0,1,log,1,done
    """
    given = copied(tasks, "tasks")
    text = _trace_text(given, rows)
    _replied(["judge", "1", "2", "1", "1"], ("the tasks", "the trace"), _task_text(given, None).encode(), text.encode(), _ILLEGAL)
    return _written(text, path)


def _on_trace(command: str, tasks: Iterable[Task], rows: Iterable[Row], scale: Optional[Fraction]) -> str:
    """What a command says of the trace of these rows."""
    given = copied(tasks, "tasks")
    first, second = _task_text(given, scale), _trace_text(given, rows)
    return _replied([command, "1", "2"], ("the tasks", "the trace"), first.encode(), second.encode())


def chart(tasks: Iterable[Task], rows: Iterable[Row], scale: Optional[Fraction] = None) -> str:
    """The rows as lines of letters, as the program's ``chart`` draws them. The tasks have a scale of their own if one is given.

    Rows that break a rule raise :class:`CommandRefused` with the verdict.

    >>> control = [Task("ctl", "high", period=10, low=2, high=6), Task("log", "low", period=10, low=5)]
    >>> print(chart(control, [Row(Event.KEPT, "ctl", 1), Row(Event.DONE, "ctl", 1), Row(Event.IDLE)]), end="")
    ctl    D.
    log    ..
    (mode) LL
    """
    return _on_trace("chart", tasks, rows, scale)


def report(tasks: Iterable[Task], rows: Iterable[Row], scale: Optional[Fraction] = None) -> str:
    """The counts of each task's jobs, as the program's ``report`` writes them. The tasks have a scale of their own if one is given.

    Rows that break a rule raise :class:`CommandRefused` with the verdict.
    """
    return _on_trace("report", tasks, rows, scale)


def svg(tasks: Iterable[Task], rows: Iterable[Row], begin: int, end: int) -> str:
    """A picture in SVG of the ticks from ``begin`` up to ``end``, with a lane for each task. The rows are drawn as they are.

    >>> svg([Task("log", "low", 10, 5)], [Row(Event.IDLE)] * 4, 0, 4).splitlines()[1]
    '<title>Ticks 0 to 3 of a trace</title>'
    """
    given = copied(tasks, "tasks")
    packed, names = given_tasks(given)
    if not names.in_order:
        raise names.refused(Status.EMPTY)
    fields = struct.iter_unpack("4I", packed)
    lanes = [_picture.Lane(name, "high" if level else "low", period) for name, (level, period, *_) in zip(names.in_order, fields)]
    first, last = number(begin, MOST_32, "begin"), number(end, MOST_32, "end")
    if first >= last:
        raise ValueError("the picture has no tick: begin is not below end")
    runs: List[_picture.Run] = []
    tick = 0
    trace = Trace.of(rows)
    _trace_text(given, trace)
    for row, times in trace.runs:
        event, task, count = struct.unpack("3I", given_row(row, names))
        job = _picture.Job(task, count) if task else None
        runs.append(_picture.Run(Event(event).name.lower(), tick, job, times))
        tick += 0 if event in (Event.KEPT, Event.DROPPED) else times
    return "".join(f"{line}\n" for line in _picture.picture(lanes, runs, first, last))
