"""A trace: rows in order, of which equal neighbours are kept as one."""

from __future__ import annotations

from bisect import bisect_right
from itertools import accumulate, chain, repeat
from typing import Iterable, Iterator, List, Optional, Sequence, Tuple, Union, overload

from ._given import MOST_64, checked_row, copied, number
from ._values import Event, Row

Run = Tuple[Row, int]
# Equal rows of these events are one run, which a trace file has in one record.
LONG = (Event.MORE, Event.IDLE)


def _run(pair: Run) -> Run:
    """The run, if the pair is a row and how many times it may come."""
    if not isinstance(pair, (tuple, list)) or len(pair) != 2:
        raise TypeError(f"a run must be a pair of a Row and its times, not {type(pair).__name__}")
    row, times = pair
    checked_row(row)
    count = number(times, MOST_64, "times", least=1)
    if count > 1 and row.event not in LONG:
        raise ValueError(f"times is {count}: a row comes once, and only an idle tick or a tick of a job with more to do comes more often")
    return row, count


def _joined(runs: Iterable[Run]) -> Iterator[Run]:
    """The runs, of which equal neighbours that may be one are one."""
    last: Optional[Run] = None
    for row, times in runs:
        if last is not None and last[0] == row and row.event in LONG:
            last = row, last[1] + times
            continue
        if last is not None:
            yield last
        last = row, times
    if last is not None:
        yield last


class Trace(Sequence[Row]):
    """Rows in order. It is used as a list of rows is, and takes memory for its ``runs`` alone.

    ``runs`` has each row once, with how many times it comes. So a million idle ticks are one run.

    >>> trace = Trace([(Row(Event.KEPT, "a", 1), 1), (Row(Event.DONE, "a", 1), 1), (Row(Event.IDLE), 1_000_000)])
    >>> len(trace), trace[-1], trace.ticks
    (1000002, Row(event=<Event.IDLE: 9>, task=None, count=0), 1000001)
    """

    __slots__ = ("runs", "_ends")

    def __init__(self, runs: Iterable[Run] = ()) -> None:
        self.runs: Tuple[Run, ...] = tuple(map(_run, copied(runs, "runs")))
        self._ends = list(accumulate(times for _, times in self.runs))

    @classmethod
    def of(cls, rows: Iterable[Row]) -> Trace:
        """The trace of these rows, with as few runs as can be.

        >>> Trace.of([Row(Event.IDLE), Row(Event.IDLE)]).runs
        ((Row(event=<Event.IDLE: 9>, task=None, count=0), 2),)
        """
        return cls(_joined(rows.runs if isinstance(rows, Trace) else ((checked_row(row), 1) for row in copied(rows, "rows"))))

    @property
    def ticks(self) -> int:
        """How many ticks the trace has: its rows that are no releases."""
        return sum(times for row, times in self.runs if row.event not in (Event.KEPT, Event.DROPPED))

    def __len__(self) -> int:
        return self._ends[-1] if self._ends else 0

    def __iter__(self) -> Iterator[Row]:
        return chain.from_iterable(repeat(row, times) for row, times in self.runs)

    @overload
    def __getitem__(self, place: int) -> Row: ...
    @overload
    def __getitem__(self, place: slice) -> List[Row]: ...

    def __getitem__(self, place: Union[int, slice]) -> Union[Row, List[Row]]:
        if isinstance(place, slice):
            return [self[at] for at in range(*place.indices(len(self)))]
        at = range(len(self))[place]
        return self.runs[bisect_right(self._ends, at)][0]

    def __eq__(self, other: object) -> bool:
        if not isinstance(other, Trace):
            return NotImplemented
        return Trace.of(self).runs == Trace.of(other).runs

    __hash__ = None  # type: ignore[assignment]

    def __repr__(self) -> str:
        return f"<Trace of {len(self)} rows in {len(self.runs)} runs>"
