"""Arrays of tasks and rows that the caller has as such: anything with the buffer protocol, as numpy's structured arrays.

An item is laid out as the struct of ``edfvd.h``, or is a row of a table of unsigned numbers of 32 bits. What is read of an array
is copied once, before it is used.
"""

from __future__ import annotations

import ctypes
import re
from typing import Any, Iterable, Iterator, List, Optional, Type, Union

from ._library import CRow, CTask
from ._values import Row

# What rows may come as: numpy's arrays are iterable, too.
Rows = Union[Iterable[Row], memoryview, "ctypes.Array[Any]"]

_Struct = Type[ctypes.Structure]
_NUMBER = "[@=<]?I"


def _names_of(struct: _Struct) -> List[str]:
    """The names of the fields, all of which are numbers of 32 bits."""
    return [field[0] for field in struct._fields_]


def _is_laid_out(view: memoryview, struct: _Struct) -> bool:
    """Whether the items of the view are structs of this layout, or rows of a table with as many numbers."""
    names = _names_of(struct)
    if view.ndim == 1:
        layout = "T[{]" + "".join(f"{_NUMBER}:{name}:" for name in names) + "[}]"
        # An empty array of ctypes has items of 0 bytes before Python 3.10.
        return (view.itemsize == ctypes.sizeof(struct) or not len(view)) and re.fullmatch(layout, view.format) is not None
    is_number = view.itemsize == 4 and re.fullmatch(f"{_NUMBER}|[@=<]?L", view.format) is not None
    return view.ndim == 2 and is_number and view.shape is not None and view.shape[1] == len(names)


def view_of(value: object, struct: _Struct) -> Optional[memoryview]:
    """A view of an array of such items; None if the value has no buffer, or one of Python objects, and is to be iterated."""
    if type(value) in (list, tuple):
        return None
    try:
        view = memoryview(value)  # type: ignore[arg-type]
    except (TypeError, ValueError, BufferError):  # no buffer, or one whose items have no format, as numpy's dates
        return None
    if view.format == "O":
        return None
    if not _is_laid_out(view, struct):
        fields = ", ".join(_names_of(struct))
        raise TypeError(
            f"the items of the array are not laid out as edfvd_{struct.__name__[1:].lower()}: unsigned numbers of 32 bits, {fields}"
        )
    return view


def task_view(value: object) -> Optional[memoryview]:
    """A view of an array of ``edfvd_task``."""
    return view_of(value, CTask)


def row_view(value: object) -> Optional[memoryview]:
    """A view of an array of ``edfvd_row``."""
    return view_of(value, CRow)


def parts(view: memoryview, length: int) -> Iterator[bytes]:
    """Copies of the items, at most this many at once."""
    return (view[begin:begin + length].tobytes() for begin in range(0, len(view), length))
