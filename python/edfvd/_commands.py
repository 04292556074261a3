"""The commands of the program, over bytes in memory."""

from __future__ import annotations

import ctypes
import struct
from typing import Iterable, List, Tuple

from ._errors import CommandRefused, Refused, Status
from ._given import MOST_64, Names, given_bytes, given_jobs, given_tasks, given_words, number
from ._library import library, size, u32
from ._values import Event, Job, Row, Task


def ask(words: Iterable[str], first: bytes = b"", second: bytes = b"") -> Tuple[int, bytes]:
    """What the program replies to the words: its exit status and its text.

    The words name the two files ``1`` and ``2``, whose bytes are given; any other name is an empty file. ``soak``, ``live`` and
    ``runall`` start threads, and are refused with ``Status.THREADS``, whatever the files are.

    >>> ask(["check", "1"], b"task = [{name='a', level='low', period=4, low=2}]")[0]
    0
    """
    encoded = given_words(words)
    one, two = given_bytes(first, "first"), given_bytes(second, "second")
    array = (ctypes.c_char_p * len(encoded))(*encoded)
    length, ended, room = size(), u32(), 4096
    while True:
        out = ctypes.create_string_buffer(room)
        status = library.ask(len(encoded), array, one, len(one), two, len(two), out, room, length, ended)
        if status != Status.SHORT_BUFFER:
            break
        room = length.value
    if status:
        raise Refused(Status(status))
    return ended.value, out.raw[: length.value]


def _asked(words: List[str], first: str, second: str = "", *passes: int) -> Tuple[int, List[str]]:
    """The exit status, which is 0 or one of these, and the lines of the text; otherwise it raises what the text says."""
    ended, text = ask(words, first.encode(), second.encode())
    lines = text.decode().splitlines()
    if ended != 0 and ended not in passes:
        raise CommandRefused(ended, "; ".join(lines))
    return ended, lines


def task_file(packed: bytes, names: Names) -> str:
    """The tasks as a task file, in which a low task gives no high budget."""
    lines = []
    for name, (level, period, low, high) in zip(names.in_order, struct.iter_unpack("4I", packed)):
        lines += ["[[task]]", f'name = "{name}"', f'level = "{"high" if level else "low"}"', f"period = {period}", f"low = {low}"]
        if level or high != low:
            lines.append(f"high = {high}")
    return "\n".join(lines) + "\n"


def run(tasks: Iterable[Task], jobs: Iterable[Job], ticks: int) -> List[Row]:
    """The one trace of 1 to 1,000,000 ticks that the set, its rule and the jobs determine.

    >>> control = [Task("ctl", "high", period=10, low=2, high=6), Task("log", "low", period=10, low=5)]
    >>> rows = run(control, [Job("ctl", 0, 3), Job("log", 0, 1)], 8)
    >>> [row.event.name for row in rows]
    ['KEPT', 'KEPT', 'MORE', 'OVER', 'DONE', 'IDLE', 'IDLE', 'IDLE', 'IDLE', 'IDLE']
    """
    (packed, names), length = given_tasks(tasks), number(ticks, MOST_64, "ticks")
    work = ["task,release,need", *(f"{task},{release},{need}" for task, release, need in given_jobs(jobs))]
    _, text = _asked(["run", "1", "2", str(length)], task_file(packed, names), "\n".join(work) + "\n")
    rows: List[Row] = []
    for line in text[1:]:
        event, _tick, ticks_of_line, task, count, how = line.split(",")
        row = Row(Event.IDLE) if event == "idle" else Row(Event[how.upper()], task, int(count))
        rows += [row] * int(ticks_of_line or 1)
    return rows


def counterexample(packed: bytes, names: Names) -> Tuple[str, ...]:
    """The lines of a run in which a job is late, of tasks that plain EDF does not schedule."""
    lines = ["task,period,deadline,budget"]
    for name, fields in zip(names.in_order, struct.iter_unpack("3I", packed)):
        lines.append(",".join(map(str, (name, *fields))))
    _, text = _asked(["demand", "1"], "\n".join(lines) + "\n", "", 10)
    return tuple(text[1:])
