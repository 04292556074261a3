"""The library with its lengths measured: a call that says more elements than its memory has is caught before it is made.

Nothing else sees such a call: the proved code takes the caller's length for true, and reads or writes past the memory.
"""

import contextlib
import ctypes
from typing import Any, Callable, Dict, Iterator, List, Tuple

from edfvd import _library

# Which parameters are memory, and which one says how many elements it has. An array of 11 counts comes without a number.
LENGTHS: Dict[str, List[Tuple[int, int]]] = {
    "check": [(0, 1)],
    "check_many": [(0, 1), (2, 3), (4, 3), (5, 3)],
    "stretch": [(0, 1)],
    "partition": [(0, 1), (3, 1)],
    "demand": [(0, 1)],
    "sensitivity": [(0, 1), (2, 1)],
    "scales": [(0, 1)],
    "speed": [(0, 1)],
    "judge": [(0, 1), (2, 3)],
    "ask": [(1, 0), (2, 3), (4, 5), (6, 7)],
    "scheduler_open": [(1, 2)],
    "scheduler_open_endless": [(1, 2)],
    "scheduler_open_scaled": [(1, 2)],
    "scheduler_open_endless_scaled": [(1, 2)],
    "monitor_open": [(1, 2)],
    "monitor_observe_all": [(1, 2)],
    "monitor_late": [(2, 3)],
}
# Which parameter is one element, for calls that take one row.
ONE: Dict[str, int] = {"monitor_observe": 1, "monitor_would_fit": 1}


def elements(memory: Any, kind: Any) -> int:
    """How many elements of the parameter's type the memory has."""
    if isinstance(memory, bytes):
        return len(memory) // ctypes.sizeof(getattr(kind, "element", ctypes.c_char))
    element = 1 if kind is ctypes.c_char_p else ctypes.sizeof(kind._type_)
    return ctypes.sizeof(memory) // element


def _watched(name: str, call: Callable[..., int]) -> Callable[..., int]:
    """The call, which asserts that its lengths are true."""
    _, kinds = _library.CALLS[name]

    def watched(*given: Any) -> int:
        for memory, length in LENGTHS.get(name, []):
            there = elements(given[memory], kinds[memory])
            # There is one offset more than there are sets.
            if given[length] + (kinds[memory] is _library.PackedOffsets) > there:
                raise AssertionError(f"{name}: parameter {memory} has {there} elements, and {given[length]} are said")
        if name in ONE and elements(given[ONE[name]], kinds[ONE[name]]) != 1:
            raise AssertionError(f"{name}: no row is given")
        return call(*given)

    return watched


@contextlib.contextmanager
def measured() -> Iterator[None]:
    """Each call of the library is watched while this lasts."""
    calls = {name: getattr(_library.library, name) for name in [*LENGTHS, *ONE]}
    for name, call in calls.items():
        setattr(_library.library, name, _watched(name, call))
    try:
        yield
    finally:
        for name, call in calls.items():
            setattr(_library.library, name, call)
