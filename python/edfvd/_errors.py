"""Why a call is refused."""

from __future__ import annotations

from typing import Any, Dict, Optional, Tuple, Type

from ._library import library
from ._values import Named


class Status(Named):
    """Why the library refuses a call; the numbers are those of ``edfvd.h``. ``str(Refused(status))`` says it in words."""

    EMPTY = 1
    TOO_MANY = 2
    ZERO_NUMBER = 3
    BUDGET_ORDER = 4
    SAME_NAME = 5
    LEVEL = 6
    PERIODS = 7
    NOT_ADMITTED = 8
    MEMORY = 9
    NO_TASK = 10
    DEADLINE_ORDER = 11
    CLOSED = 12
    OPEN = 13
    RUNNING = 20
    TOO_SOON = 21
    FULL = 22
    TICK_OUT = 23
    NOT_CHOSEN = 24
    NOT_OUT = 25
    PENDING = 26
    NO_ROW = 27
    NO_PERCENTAGE = 28
    NO_PROCESSOR = 29
    GONE = 30
    PAST = 31
    NULL = 40
    MOVED = 41
    BUSY = 42
    ARGUMENT = 43
    SHORT_BUFFER = 44
    THREADS = 45


class EdfvdError(Exception):
    """A call was refused."""


class Refused(EdfvdError):
    """The library refused a call.

    ``status`` says why, and ``task`` names the task that it is about, if any. If a release came too soon, ``at`` is the first
    tick at which the task may release again; if a run was too long, ``at`` is how many ticks the job may run. The message is
    ``words`` if they are given, and otherwise those of the status.

    >>> from edfvd import Task, check
    >>> try:
    ...     check([Task("a", "low", period=0, low=1)])
    ... except Refused as refused:
    ...     print(refused.status.name, "-", refused)
    ZERO_NUMBER - task a: a period, deadline or budget is 0
    """

    def __init__(self, status: Status, task: Optional[str] = None, at: int = 0, words: Optional[str] = None) -> None:
        status = Status(status)
        self.status = status
        self.task = task
        self.at = at
        word = library.word(status).decode() if words is None else words
        super().__init__(word if task is None else f"task {task}: {word}")

    def __repr__(self) -> str:
        return f"Refused(Status.{self.status.name}, task={self.task!r}, at={self.at})"

    def __reduce__(self) -> Tuple[Type[Refused], Tuple[Status, Optional[str], int, str], Dict[str, Any]]:
        """How the exception is copied and pickled, so that it comes back from another process."""
        begin = "" if self.task is None else f"task {self.task}: "
        return type(self), (self.status, self.task, self.at, str(self).removeprefix(begin)), vars(self)


class CommandRefused(EdfvdError):
    """A command of the program refused its files or words: its exit status, and its text as the message.

    >>> from edfvd import Job, Task, run
    >>> try:
    ...     run([Task("a", "low", period=4, low=1)], [Job("b", release=0, need=1)], 8)
    ... except CommandRefused as refused:
    ...     print(refused.exit_status, refused)
    4 work file line 2: unknown task
    """

    def __init__(self, exit_status: int, text: str) -> None:
        self.exit_status = exit_status
        super().__init__(text)

    def __repr__(self) -> str:
        return f"CommandRefused({self.exit_status}, {str(self)!r})"

    def __reduce__(self) -> Tuple[Type[CommandRefused], Tuple[int, str], Dict[str, Any]]:
        """How the exception is copied and pickled, so that it comes back from another process."""
        return type(self), (self.exit_status, str(self)), vars(self)
