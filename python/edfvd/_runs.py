"""Several ticks of a scheduler in one call, and what a caller would otherwise keep tables of."""

from __future__ import annotations

from dataclasses import dataclass
from fractions import Fraction
from typing import TYPE_CHECKING, Iterable, Optional, Tuple, Type, TypeVar

from ._errors import Refused, Status
from ._given import MOST_32, MOST_64, given_tasks, number, parts_of
from ._handle import Handle
from ._library import CAnswer, CNext, CPending, CScale, library, u32, u64
from ._values import Answer, Task

_Self = TypeVar("_Self", bound="Runs")
_SCALE_FAILS = {Status.NOT_ADMITTED: " under this scale; edfvd.scales says which scales hold for the set, if any"}


@dataclass(frozen=True)
class Next:
    """The job that runs, as its task and its count, and how many ticks it may run in one go."""

    task: str
    count: int
    ticks: int


@dataclass(frozen=True)
class PendingJob:
    """A pending job: the ticks that it has ``used``, its release and its deadline in ticks, and its key, also in ticks.

    The job with the least key is the chosen one: the key is the virtual deadline in low mode, and the deadline in high mode.
    """

    task: str
    count: int
    used: int
    release: int
    deadline: int
    key: Fraction


class Runs(Handle):
    """The calls of a scheduler that several ticks, or no tick, belong to."""

    if TYPE_CHECKING:

        def _answer(self, status: int, answer: CAnswer) -> Answer: ...

    @classmethod
    def scaled(
        cls: Type[_Self], tasks: Iterable[Task], scale: Optional[Fraction], places: Optional[int] = None
    ) -> _Self:
        """A scheduler under a scale of your own, which must hold for the set; with None for it, that of the published test.

        ``places`` is as in the constructor; with None the scheduler has no end.

        >>> from edfvd import Scheduler
        >>> control = [Task("ctl", "high", period=10, low=2, high=6), Task("log", "low", period=10, low=5)]
        >>> with Scheduler.scaled(control, Fraction(1, 2)) as scheduler:
        ...     scheduler.scale()
        Fraction(1, 2)
        """
        packed, names = given_tasks(tasks)
        numerator, denominator = parts_of(scale)
        scheduler = cls.__new__(cls)
        if numerator:
            scheduler._hints = _SCALE_FAILS
        if places is None:
            call = library.scheduler_open_endless_scaled
            scheduler._open(names, call, packed, len(names), numerator, denominator)
        else:
            call, capacity = library.scheduler_open_scaled, number(places, MOST_32, "places")
            scheduler._open(names, call, packed, len(names), numerator, denominator, capacity)
        return scheduler

    def _accepts(self, status: int) -> None:
        if status:
            raise Refused(Status(status))

    def next(self) -> Optional[Next]:
        """The chosen job and how many ticks it may run: unless it is done before, it overruns or is stopped in the last.

        >>> from edfvd import Scheduler
        >>> with Scheduler([Task("a", "low", period=4, low=2)], places=100) as scheduler:
        ...     _ = scheduler.release("a")
        ...     scheduler.next()
        Next(task='a', count=1, ticks=2)
        """
        found = CNext()
        self._accepts(library.scheduler_next(self._held, found))
        name = self._names.name(found.task)
        return None if name is None else Next(name, found.count, found.ticks)

    def run(self, task: str, count: int, ticks: int, *, done: bool) -> Answer:
        """Report that the chosen job ran for this many ticks, and whether it was done in the last of them.

        It leaves what a grant and an outcome for each of these ticks leave. The answer is ``MORE``, ``DONE``, ``STOP`` or
        ``OVER``, of the last tick. A run past the boundary of :meth:`next` is refused with ``Status.PAST``; ``at`` of the
        exception is then how many ticks the job may run.
        """
        if not isinstance(done, bool):
            raise TypeError(f"done must be a bool, not {type(done).__name__}")
        answer, count, ticks = CAnswer(), number(count, MOST_32, "the count"), number(ticks, MOST_32, "ticks")
        status = library.scheduler_run(self._held, self._names.number(task), count, ticks, done, answer)
        return self._answer(status, answer)

    def idle_for(self, ticks: int) -> Answer:
        """Report that the next ticks, this many, are idle, which they may be only if no job is pending.

        >>> from edfvd import Scheduler
        >>> with Scheduler.endless([Task("a", "low", period=4, low=2)]) as scheduler:
        ...     _ = scheduler.idle_for(10**12)
        ...     scheduler.look().ticks
        1000000000000
        """
        answer = CAnswer()
        status = library.scheduler_idle_for(self._held, number(ticks, MOST_64, "ticks"), answer)
        return self._answer(status, answer)

    def pending(self, task: str) -> Optional[PendingJob]:
        """The task's pending job, if it has one. A held job is pending after the outcome exactly if its release was kept."""
        found, scale = CPending(), CScale()
        self._accepts(library.scheduler_pending(self._held, self._names.number(task), found))
        name = self._names.name(found.task)
        if name is None:
            return None
        self._accepts(library.scheduler_scale(self._held, scale))
        key = Fraction((found.key_top << 64) + found.key, scale.q or 1)
        return PendingJob(name, found.count, found.used, found.release, found.deadline, key)

    def earliest(self, task: str) -> int:
        """The earliest next release of the task: the first tick at which it is not too soon."""
        at = u64()
        self._accepts(library.scheduler_earliest(self._held, self._names.number(task), at))
        return at.value

    def discarded(self, task: str) -> Optional[Tuple[str, int]]:
        """The task's job that the latest overrun discarded, as its task and its count, if it discarded one."""
        count = u32()
        self._accepts(library.scheduler_discarded(self._held, self._names.number(task), count))
        return (task, count.value) if count.value else None

    def scale(self) -> Optional[Fraction]:
        """The scale in force, or None under plain EDF."""
        found = CScale()
        self._accepts(library.scheduler_scale(self._held, found))
        return Fraction(found.p, found.q) if found.q else None
