"""A monitor, which judges a schedule while it happens."""

from __future__ import annotations

import ctypes
from fractions import Fraction
from itertools import islice
from struct import error
from typing import Any, Callable, Iterable, Iterator, List, Mapping, Optional, Tuple

from ._arrays import Rows, parts, row_view
from ._calls import verdict_of
from ._errors import Refused, Status
from ._given import (
    A_SCALE_HELPS, MOST_32, MOST_64, ROW_BYTES, UNKNOWN, given_row, given_rows, given_tasks, number, packed_row, parts_of, row_fault,
)
from ._handle import Handle
from ._library import CLate, CMonitor, CUnfit, CVerdict, CWatch, library, u64
from ._trace import Trace
from ._values import Event, Late, Row, Task, Unfit, Verdict, Watch, Why


_CHUNK = 4096
_ONCE = 1

# Memory that a call writes, and how the call takes it. Each call takes it out of the list, so no other thread writes it meanwhile.
_spares: List[Tuple[CUnfit, Any]] = []
_taken, _back = _spares.pop, _spares.append


def _spare() -> Tuple[CUnfit, Any]:
    """Memory for a call that finds none in the list."""
    unfit = CUnfit()
    return unfit, ctypes.byref(unfit)


def _found(unfit: CUnfit) -> Optional[Unfit]:
    """What the library found of a row."""
    return Unfit(Why(unfit.why), unfit.place) if unfit.why else None


class Monitor(Handle):
    """A monitor of a schedule, row by row, under the rule that :func:`judge` takes. As a context manager it closes itself.

    docs/RULES.md in the repository states the rules that rows must follow, and :class:`Why` lists what can be wrong.
    It keeps no rows, so it can watch for ever. One monitor serves one thread at a time: another one gets ``Status.BUSY``.

    >>> from edfvd import Event
    >>> with Monitor([Task("a", "low", period=4, low=2)]) as monitor:
    ...     _ = monitor.observe(Row(Event.KEPT, "a", 1))
    ...     monitor.observe(Row(Event.IDLE))
    Unfit(why=<Why.IDLE_PENDING: 7>, place=2)
    """

    _struct = CMonitor
    _free = library.monitor_close
    _hints = A_SCALE_HELPS

    # The number of each task's name, and 0 for None. `names.known` has no name until a number is asked for, so the opening asks
    # for `names.numbers`. Each call of `observe` then finds the dict here, which is one attribute nearer.
    _numbers: Mapping[object, int] = UNKNOWN

    def __init__(self, tasks: Iterable[Task], scale: Optional[Fraction] = None) -> None:
        packed, names = given_tasks(tasks)
        self._open(names, library.monitor_open, packed, len(names), *parts_of(scale))
        self._numbers = names.numbers

    def __repr__(self) -> str:
        try:
            watch = self.look()
        except Refused as refused:
            return f"<Monitor, {refused}>"
        return f"<Monitor of {len(self._names)} tasks, {watch.rows} rows, {'legal' if watch.legal else 'illegal'}>"

    def observe(self, row: Row, times: int = 1) -> Optional[Unfit]:
        """Take the next row, and return the first row so far that does not fit, or None.

        A tick of a job with more to do and an idle tick may come many ``times`` at once. ``Refused`` with ``Status.MEMORY`` comes only
        for a kept release of a task that has two pending jobs or more.
        """
        if times is not _ONCE and (type(times) is not int or not 0 <= times <= MOST_32):
            times = number(times, MOST_32, "times")
        packed = None
        if type(row) is Row:  # as in given_row: a call of it would take some 5 per cent of the time
            try:
                event, task, count = row.event, row.task, row.count
                if type(event) is Event and type(count) is int and (type(task) is str or task is None):
                    packed = packed_row(event, self._numbers[task], count)
            except (AttributeError, KeyError, error):
                pass
        if packed is None:
            packed = given_row(row, self._names)
        try:
            unfit, at = spare = _taken()
        except IndexError:
            unfit, at = spare = _spare()
        status = library.monitor_observe(self._at, packed, times, at)
        if status:
            raise self._refused(status, packed, times)
        if unfit.why:
            return _found(unfit)
        _back(spare)
        return None

    def observe_all(self, rows: Rows) -> Optional[Unfit]:
        """Take the rows in order up to the first one that does not fit, and return that one, or None.

        The rows are ``Row`` objects, a :class:`Trace`, of which each run is taken at once, or an array of ``edfvd_row``, such as a
        structured array of numpy or what ``Scheduler.row_array`` returns. If a row is refused, those before it are taken.

        >>> from edfvd import Event
        >>> with Monitor([Task("a", "low", period=4, low=2)]) as monitor:
        ...     monitor.observe_all([Row(Event.IDLE), Row(Event.KEPT, "a", 1), Row(Event.IDLE)])
        Unfit(why=<Why.IDLE_PENDING: 7>, place=3)
        """
        if isinstance(rows, Trace):
            return self._observe_runs(rows)
        view = row_view(rows)
        unfit = CUnfit()
        for packed in parts(view, _CHUNK) if view is not None else self._chunks(rows):
            status = library.monitor_observe_all(self._held, packed, len(packed) // ROW_BYTES, unfit)
            if status:
                raise self._refused(status, packed)
            if unfit.why:
                return _found(unfit)
        return None

    def _refused(self, status: int, packed: bytes, times: int = 1) -> Refused:
        """The exception for rows of which the library refused one. Those before it are taken, and the message names it."""
        found = row_fault(status, packed, self._names, times)
        if found is None:
            return Refused(Status(status))
        try:
            watch = self.look()
        except Refused:  # another thread has it, or has closed it
            return Refused(Status(status), words=found[1])
        which = f"row {watch.rows + 1}" if watch.legal else "a row after the first unfit one"
        return Refused(Status(status), words=f"{which}: {found[1]}")

    def _observe_runs(self, trace: Trace) -> Optional[Unfit]:
        """Take the runs of a trace up to the first row that does not fit, each at once."""
        for row, times in trace.runs:
            for left in range(times, 0, -MOST_32):
                found = self.observe(row, min(left, MOST_32))
                if found is not None:
                    return found
        return None

    def _chunks(self, rows: Iterable[Any]) -> Iterator[bytes]:
        """Rows of an iterable, some at once; a row that is wrong is found when those before it are taken."""
        try:
            left = iter(rows)
        except TypeError as error:
            raise TypeError(f"rows: {error}") from None
        while True:
            some = tuple(islice(left, _CHUNK))
            if not some:
                return
            try:
                yield given_rows(some, self._names)
            except (TypeError, ValueError):
                for row in some:
                    yield given_row(row, self._names)

    def would_fit(self, row: Row, times: int = 1) -> Optional[Unfit]:
        """What :meth:`observe` would return for the row, which is not taken.

        >>> from edfvd import Event
        >>> with Monitor([Task("a", "low", period=4, low=2)]) as monitor:
        ...     monitor.would_fit(Row(Event.KEPT, "a", 2)), monitor.look().rows
        (Unfit(why=<Why.WRONG_COUNT: 2>, place=1), 0)
        """
        many, unfit = number(times, MOST_32, "times"), CUnfit()
        packed = given_row(row, self._names)
        status = library.monitor_would_fit(self._at, packed, many, ctypes.byref(unfit))
        if status:
            raise self._refused(status, packed, many)
        return _found(unfit)

    def late(self, since: int) -> List[Late]:
        """The pending jobs whose deadlines came after ``since`` ticks, in the order of their deadlines.

        After one call of :meth:`observe`, with the ticks before it, these are the jobs that became late by it.

        >>> from edfvd import Event
        >>> with Monitor([Task("a", "low", 4, 4), Task("b", "low", 4, 4)], Fraction(1)) as monitor:
        ...     for row in [Row(Event.KEPT, "a", 1), Row(Event.KEPT, "b", 1)]:
        ...         _ = monitor.observe(row)
        ...     _ = monitor.observe(Row(Event.MORE, "a", 1), times=3)
        ...     _ = monitor.observe(Row(Event.DONE, "a", 1))
        ...     monitor.late(since=3)
        [Late(task='b', count=1, deadline=4)]
        """
        ticks, count, room = number(since, MOST_64, "since"), u64(), 8
        while True:
            jobs = (CLate * room)()
            status = library.monitor_late(self._held, ticks, jobs, room, count)
            if status != Status.SHORT_BUFFER:
                break
            room = count.value
        if status:
            raise Refused(Status(status))
        return [Late(self._names.in_order[job.task - 1], job.count, job.deadline) for job in jobs[: count.value]]

    def verdict(self) -> Verdict:
        """The verdict on all rows so far."""
        verdict = CVerdict()
        status = library.monitor_verdict(self._held, verdict)
        if status:
            raise Refused(Status(status))
        return verdict_of(self._names, verdict)

    def look(self) -> Watch:
        """The clock, the mode and how many jobs are pending."""
        watch = CWatch()
        status = library.monitor_look(self._held, watch)
        if status:
            raise Refused(Status(status))
        return Watch(
            rows=watch.rows, legal=bool(watch.legal), ticks=watch.ticks, pending=watch.pending,
            high_mode=bool(watch.high_mode),
        )
