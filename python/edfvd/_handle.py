"""What a scheduler and a monitor share: memory of the library, which is freed exactly once."""

from __future__ import annotations

import ctypes
from types import TracebackType
from typing import Any, Callable, ClassVar, Dict, NoReturn, Optional, Type, TypeVar

from ._errors import Refused, Status
from ._given import Names
from ._library import u32

_Self = TypeVar("_Self", bound="Handle")


class Handle:
    """An open or closed scheduler or monitor. As a context manager it closes itself, and it cannot be copied or pickled."""

    _struct: ClassVar[Type[ctypes.Structure]]
    _free: ClassVar[Callable[..., int]]
    # How the messages of these statuses go on if it cannot be opened.
    _hints: Dict[Status, str] = {}

    # Until it is opened the library is given a null pointer, which it refuses.
    _held: Any = None
    _at: Any = None
    _names = Names([])

    def _open(self, names: Names, call: Callable[..., int], *given: object) -> None:
        """Opens it by the call of the library, which refuses one that is open already."""
        held, task = vars(self).setdefault("_held", self._struct()), u32()
        self._at = ctypes.byref(held)
        status = call(held, *given, task)
        if status:
            raise names.refused(status, task.value, more=self._hints.get(Status(status), ""))
        self._names = names
        # A dict of its own: up to Python 3.12, attributes take three times as long in one whose keys all instances of a class share.
        self.__dict__ = dict(vars(self))

    def __enter__(self: _Self) -> _Self:
        return self

    def __exit__(
        self, kind: Optional[Type[BaseException]], error: Optional[BaseException], trace: Optional[TracebackType]
    ) -> None:
        self.close()

    def __del__(self) -> None:
        self._free(self._held)

    def __reduce__(self) -> NoReturn:
        """Refuses to be copied or pickled: a copy would close the memory of the original."""
        raise TypeError(f"a {type(self).__name__} cannot be copied or pickled")

    def close(self) -> None:
        """Free the memory. Later calls are refused with ``Status.CLOSED``; a second close does nothing.

        While another thread is in a call, this is refused with ``Status.BUSY``, and nothing is closed.
        """
        status = self._free(self._held)
        if status not in (0, Status.CLOSED, Status.NULL):
            raise Refused(Status(status))
