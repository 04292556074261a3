"""A scheduler, driven event by event."""

from __future__ import annotations

import ctypes
from itertools import chain, repeat
from typing import Iterable, Iterator, Optional, Tuple

from ._errors import Refused, Status
from ._given import MOST_32, MOST_64, given_tasks, number
from ._library import CAnswer, CLook, CRow, CScheduler, library, u32
from ._runs import Runs
from ._values import Answer, Event, Look, Row, Task


class Scheduler(Runs):
    """A scheduler of a set under the rule that the published test gives it. As a context manager it closes itself.

    ``places`` is how many rows it can record, with held releases and the tick in progress among them; with None it is one
    without an end, as :meth:`endless` makes it. An event that is refused raises :class:`Refused` and changes nothing. One
    scheduler serves one thread at a time: another one gets ``Status.BUSY``.

    >>> with Scheduler([Task("a", "low", period=4, low=2)], places=100) as scheduler:
    ...     _ = scheduler.release("a")
    ...     _ = scheduler.grant("a")
    ...     scheduler.outcome("a", 1, done=True).event
    <Event.DONE: 6>
    """

    _struct = CScheduler
    _free = library.scheduler_close
    _hints = {Status.NOT_ADMITTED: "; no scale holds for the set, so only judge and Monitor take it, with any scale"}

    def __init__(self, tasks: Iterable[Task], places: Optional[int]) -> None:
        packed, names = given_tasks(tasks)
        if places is None:
            self._open(names, library.scheduler_open_endless, packed, len(names))
        else:
            capacity = number(places, MOST_32, "places")
            self._open(names, library.scheduler_open, packed, len(names), capacity)

    def __repr__(self) -> str:
        try:
            look = self.look()
        except Refused as refused:
            return f"<Scheduler, {refused}>"
        return f"<Scheduler of {len(self._names)} tasks, {look.ticks} ticks, {look.rows} rows>"

    @classmethod
    def endless(cls, tasks: Iterable[Task]) -> Scheduler:
        """A scheduler without an end, which keeps the latest 256 runs of equal rows alone.

        An event makes at most one row more than there are tasks, except that ``run`` and ``idle_for`` make one or two runs of equal
        rows. So if you read the runs after each event, from the last row that you have on, you get them all; here a monitor gets them.

        >>> from edfvd import Monitor
        >>> tasks, seen = [Task("a", "low", period=4, low=2)], 0
        >>> with Scheduler.endless(tasks) as scheduler, Monitor(tasks) as monitor:
        ...     for _ in range(1000):
        ...         _ = scheduler.idle()
        ...         for row, times in scheduler.runs(seen):
        ...             _ = monitor.observe(row, times)
        ...             seen += times
        ...     monitor.verdict().legal, len(list(scheduler.rows(990)))
        (True, 10)
        """
        return cls(tasks, None)

    def _answer(self, status: int, answer: CAnswer) -> Answer:
        if status:
            raise self._names.refused(status, answer.task, answer.at)
        return Answer(
            event=Event(answer.what), task=self._names.name(answer.task), count=answer.count, before=answer.before,
            at=answer.at,
        )

    def release(self, task: str) -> Answer:
        """Release the task's next job: ``KEPT``, ``DROPPED``, or ``HELD`` while a tick is in progress."""
        answer = CAnswer()
        return self._answer(library.scheduler_release(self._held, self._names.number(task), answer), answer)

    def grant(self, task: str) -> Answer:
        """Grant the next tick to the task, whose job must be the chosen one."""
        answer = CAnswer()
        return self._answer(library.scheduler_grant(self._held, self._names.number(task), answer), answer)

    def outcome(self, task: str, count: int, *, done: bool) -> Answer:
        """Report whether the job is done with the tick in progress: ``DONE``, ``STOP``, ``OVER`` or ``MORE``."""
        if not isinstance(done, bool):
            raise TypeError(f"done must be a bool, not {type(done).__name__}")
        answer, number_of_job = CAnswer(), number(count, MOST_32, "the count")
        status = library.scheduler_outcome(self._held, self._names.number(task), number_of_job, done, answer)
        return self._answer(status, answer)

    def idle(self) -> Answer:
        """Report that the next tick is idle, which it may be only if no job is pending."""
        answer = CAnswer()
        return self._answer(library.scheduler_idle(self._held, answer), answer)

    def look(self) -> Look:
        """The clock, the mode, the job with the tick in progress and the one that comes next.

        >>> with Scheduler([Task("a", "low", period=4, low=2)], places=100) as scheduler:
        ...     _ = scheduler.release("a")
        ...     scheduler.look().chosen
        ('a', 1)
        """
        look = CLook()
        status = library.scheduler_look(self._held, look)
        if status:
            raise Refused(Status(status))
        return Look(
            ticks=look.ticks, rows=look.rows, high_mode=bool(look.high_mode),
            out=self._names.job(look.out_task, look.out_count),
            chosen=self._names.job(look.chosen_task, look.chosen_count),
        )

    def rows(self, since: int = 0) -> Iterator[Row]:
        """The rows so far, the oldest first, without the first ``since`` of them.

        One that a scheduler without an end no longer keeps is refused with ``Status.GONE``.

        >>> with Scheduler([Task("a", "low", period=4, low=2)], places=100) as scheduler:
        ...     _ = scheduler.idle(), scheduler.release("a")
        ...     list(scheduler.rows(since=1))
        [Row(event=<Event.KEPT: 1>, task='a', count=1)]
        """
        return chain.from_iterable(repeat(row, times) for row, times in self.runs(since))

    def runs(self, since: int = 0) -> Iterator[Tuple[Row, int]]:
        """The rows as :meth:`rows` has them, of which equal neighbours are one row with how many ``times`` it comes.

        ``Trace`` takes them, and ``Monitor.observe`` takes each. One has at most 2^32 - 1 rows, so more equal rows are several.

        >>> with Scheduler.endless([Task("a", "low", period=4, low=2)]) as scheduler:
        ...     _ = scheduler.idle_for(1000), scheduler.release("a")
        ...     list(scheduler.runs())
        [(Row(event=<Event.IDLE: 9>, task=None, count=0), 1000), (Row(event=<Event.KEPT: 1>, task='a', count=1), 1)]
        """
        return self._runs(number(since, MOST_64, "since"), self.look().rows)

    def row_array(self, since: int = 0) -> "ctypes.Array[CRow]":
        """The rows so far, without the first ``since`` of them, as an array of ``edfvd_row``.

        It has the buffer protocol: ``numpy.asarray`` makes a structured array of it, and :func:`judge` and ``Monitor.observe_all``
        take it. The task of a row is its number, from 1.

        >>> with Scheduler([Task("a", "low", period=4, low=2)], places=100) as scheduler:
        ...     _ = scheduler.idle(), scheduler.release("a")
        ...     [(row.event, row.task, row.count) for row in scheduler.row_array()]
        [(9, 0, 0), (1, 1, 1)]
        """
        first, end = number(since, MOST_64, "since"), self.look().rows
        array = (CRow * max(0, end - first))()
        for place, row in enumerate(array, first):
            status = library.scheduler_row(self._held, place, row)
            if status:
                raise Refused(Status(status))
        return array

    def _runs(self, since: int, end: int) -> Iterator[Tuple[Row, int]]:
        row, times = CRow(), u32()
        while since < end:
            status = library.scheduler_rows(self._held, since, row, times)
            if status:
                raise Refused(Status(status))
            equal = min(times.value, end - since)
            yield Row(Event(row.event), self._names.name(row.task), row.count), equal
            since += equal

    def restart(self) -> None:
        """Start the ticks, the rows and the counts anew, at any moment when no job is pending.

        Each task's earliest next release is kept, so two releases of a task are a period apart also across a restart. A scheduler
        that runs for ever needs this, since a task has at most 2^32 - 1 releases.

        >>> with Scheduler.endless([Task("a", "low", period=4, low=2)]) as scheduler:
        ...     _ = scheduler.release("a"), scheduler.run("a", 1, 1, done=True)
        ...     scheduler.restart()
        ...     scheduler.look().ticks, scheduler.earliest("a")
        (0, 3)
        """
        answer = CAnswer()
        status = library.scheduler_restart(self._held, answer)
        if status:
            raise self._names.refused(status, answer.task, answer.at)
