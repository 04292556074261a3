"""Many sets tested at once."""

from __future__ import annotations

import array
import ctypes
from typing import Callable, Dict, Iterable, List, Optional, Sequence, Tuple, Union, overload

from ._arrays import task_view
from ._calls import test_of
from ._given import MOST_64, Names, copied, given_tasks, number
from ._library import CTest, library, u32
from ._values import Task, Test


class Tests(Sequence[Test]):
    """The tests of many sets, in order. An item is what :func:`check` returns, or raises, for the set.

    ``rules`` has a byte for each set: 1 under plain EDF, 2 under EDF-VD, and 0 where the set is not admitted or refused.
    ``statuses`` has a byte for each set, which is 0 unless it is refused. ``structs`` is an array of ``edfvd_test``, as numpy takes it.
    """

    __test__ = False  # so that pytest does not take it for a test

    __slots__ = ("structs", "rules", "statuses", "_names")

    def __init__(self, structs: "ctypes.Array[CTest]", statuses: bytes, names: Dict[int, Names]) -> None:
        self.structs = structs
        self.statuses = statuses
        self.rules = bytes(structs)[::ctypes.sizeof(CTest)]
        self._names = names

    @property
    def admitted(self) -> int:
        """How many of the sets the test admits."""
        return len(self) - self.rules.count(0)

    def __len__(self) -> int:
        return len(self.statuses)

    @overload
    def __getitem__(self, place: int) -> Test: ...
    @overload
    def __getitem__(self, place: slice) -> List[Test]: ...

    def __getitem__(self, place: Union[int, slice]) -> Union[Test, List[Test]]:
        if isinstance(place, slice):
            return [self[at] for at in range(*place.indices(len(self)))]
        at = range(len(self))[place]
        if self.statuses[at]:
            task = self.structs[at].task
            names = self._names.get(at) or Names([str(number_of_task) for number_of_task in range(1, task + 1)])
            raise names.refused(self.statuses[at], task)
        return test_of(self.structs[at])

    def __reduce__(self) -> Tuple[Callable[..., Tests], Tuple[bytes, bytes, Dict[int, Names]]]:
        """How the tests are copied and pickled."""
        return _again, (bytes(self.structs), self.statuses, self._names)

    def __repr__(self) -> str:
        return f"<Tests of {len(self)} sets, {self.admitted} admitted>"


def _again(structs: bytes, statuses: bytes, names: Dict[int, Names]) -> Tests:
    """Tests that were pickled."""
    return Tests((CTest * len(statuses)).from_buffer_copy(structs), statuses, names)


def check_many(sets: object, offsets: Optional[Iterable[int]] = None) -> Tests:
    """The published test of each of many sets.

    The sets are a list of sets as :func:`check` takes them. Or, with ``offsets``, they are one array of ``edfvd_task``, such as a
    structured array of numpy with the fields level, period, low and high, of which the level is 0 for low and 1 for high and a low
    task has its budget twice. Then the first set has the tasks from ``offsets[0]`` up to ``offsets[1]``, the next one those up to
    ``offsets[2]``, and so on; a task in the message of a refusal is its number in the set, from 1.

    >>> control = [Task("ctl", "high", period=10, low=2, high=6), Task("log", "low", period=10, low=5)]
    >>> tests = check_many([control, control[:1], control[1:]])
    >>> tests.admitted, list(tests.rules), tests[0].scale
    (3, [2, 1, 1], Fraction(2, 5))
    """
    if offsets is None:
        return _of_sets(sets)
    view = task_view(sets)
    if view is None:
        raise TypeError(f"with offsets the sets are one array of edfvd_task, not {type(sets).__name__}")
    ends = array.array("Q", (number(end, MOST_64, "an offset") for end in copied(offsets, "offsets")))
    packed, most, count = view.tobytes(), len(view), max(0, len(ends) - 1)
    structs, statuses = (CTest * count)(), (u32 * count)()
    if not ends or library.check_many(packed, most, ends.tobytes(), count, structs, statuses):
        raise ValueError(f"offsets are at least one, in order, and at most {most}, the length of the array")
    return Tests(structs, bytes(statuses[:]), {})


def _of_sets(sets: object) -> Tests:
    """The tests of sets of ``Task`` objects."""
    given: Tuple[Iterable[Task], ...] = copied(sets, "sets")  # type: ignore[arg-type]
    pieces, names, ends, count = [], [], array.array("Q", [0]), len(given)
    for tasks in given:
        packed, names_of_set = given_tasks(tasks)
        pieces.append(packed)
        names.append(names_of_set)
        ends.append(ends[-1] + len(names_of_set))
    structs, statuses = (CTest * count)(), (u32 * count)()
    library.check_many(b"".join(pieces), ends[-1], ends.tobytes(), count, structs, statuses)
    refused = bytes(statuses[:])
    return Tests(structs, refused, {place: names[place] for place, status in enumerate(refused) if status})
