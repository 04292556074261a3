"""The shared library, with its structs and calls as ``edfvd.h`` declares them. ``tests`` compare the two.

What a call only reads is passed as packed ``bytes``: nobody can change them while it reads.
"""

from __future__ import annotations

import ctypes
import os
import subprocess
from pathlib import Path
from typing import Any, Callable, Dict, List, Tuple

# The version of edfvd.h that this package is written for, which must be that of the library.
VERSION = 3

u32 = ctypes.c_uint32
u64 = ctypes.c_uint64
size = ctypes.c_size_t


class CTask(ctypes.Structure):
    _fields_ = [("level", u32), ("period", u32), ("low", u32), ("high", u32)]


class CTest(ctypes.Structure):
    _fields_ = [
        ("rule", u32), ("task", u32), ("p", u64), ("q", u64), ("lcm", u64),
        ("low_low_top", u64), ("low_low", u64), ("high_low_top", u64), ("high_low", u64),
        ("high_high_top", u64), ("high_high", u64),
    ]


class CBudgets(ctypes.Structure):
    _fields_ = [("low", u32), ("high", u32)]


class CScaleRange(ctypes.Structure):
    _fields_ = [("least_p", u64), ("least_q", u64), ("greatest_p", u64), ("greatest_q", u64)]


class CDemandTask(ctypes.Structure):
    _fields_ = [("period", u32), ("deadline", u32), ("budget", u32)]


class CDemandTest(ctypes.Structure):
    _fields_ = [("past", u32), ("task", u32), ("length", u64), ("demand", u64)]


class CHandle(ctypes.Structure):
    _fields_ = [("mark", u64), ("at", ctypes.c_void_p), ("self", ctypes.c_void_p), ("busy", u32)]


class CScheduler(ctypes.Structure):
    _fields_ = [("handle", CHandle)]


class CMonitor(ctypes.Structure):
    _fields_ = [("handle", CHandle)]


class CAnswer(ctypes.Structure):
    _fields_ = [("what", u32), ("task", u32), ("count", u32), ("before", u32), ("at", u64)]


class CLook(ctypes.Structure):
    _fields_ = [
        ("ticks", u64), ("rows", u64), ("high_mode", u32), ("out_task", u32), ("out_count", u32),
        ("chosen_task", u32), ("chosen_count", u32),
    ]


class CNext(ctypes.Structure):
    _fields_ = [("task", u32), ("count", u32), ("ticks", u32)]


class CPending(ctypes.Structure):
    _fields_ = [
        ("task", u32), ("count", u32), ("used", u32), ("release", u64), ("deadline", u64), ("key_top", u64), ("key", u64),
    ]


class CScale(ctypes.Structure):
    _fields_ = [("p", u64), ("q", u64)]


class CRow(ctypes.Structure):
    _fields_ = [("event", u32), ("task", u32), ("count", u32)]


class CVerdict(ctypes.Structure):
    _fields_ = [("why", u32), ("task", u32), ("count", u32), ("late", u64), ("place", u64)]


class CUnfit(ctypes.Structure):
    _fields_ = [("why", u32), ("place", u64)]


class CWatch(ctypes.Structure):
    _fields_ = [("rows", u64), ("ticks", u64), ("pending", u64), ("legal", u32), ("high_mode", u32)]


class CLate(ctypes.Structure):
    _fields_ = [("task", u32), ("count", u32), ("deadline", u64)]


STRUCTS = {
    "edfvd_task": CTask, "edfvd_test": CTest, "edfvd_demand_task": CDemandTask, "edfvd_demand_test": CDemandTest,
    "edfvd_answer": CAnswer, "edfvd_look": CLook, "edfvd_row": CRow,
    "edfvd_next": CNext, "edfvd_pending": CPending, "edfvd_scale": CScale,
    "edfvd_verdict": CVerdict, "edfvd_unfit": CUnfit, "edfvd_watch": CWatch, "edfvd_late": CLate,
    "edfvd_budgets": CBudgets, "edfvd_scale_range": CScaleRange,
}

class PackedTasks(ctypes.c_char_p):
    """An array of ``edfvd_task`` that a call reads, as bytes."""

    element = CTask


class PackedDemands(ctypes.c_char_p):
    """An array of ``edfvd_demand_task`` that a call reads, as bytes."""

    element = CDemandTask


class PackedRows(ctypes.c_char_p):
    """A row, or an array of ``edfvd_row``, that a call reads, as bytes."""

    element = CRow


class PackedOffsets(ctypes.c_char_p):
    """An array of numbers of 64 bits that a call reads, as bytes."""

    element = u64


_pointer = ctypes.POINTER
_tasks = [PackedTasks, size]
_scheduler = _pointer(CScheduler)
_monitor = _pointer(CMonitor)

# Each call: the package's name for it, its name in the library, and its parameters. No other place has a name of the library.
CALLS: Dict[str, Tuple[str, List[Any]]] = {
    "check": ("edfvd_check", [*_tasks, _pointer(CTest)]),
    "check_many": ("edfvd_check_many", [*_tasks, PackedOffsets, size, _pointer(CTest), _pointer(u32)]),
    "stretch": ("edfvd_stretch", [*_tasks, _pointer(u32), _pointer(u32)]),
    "sensitivity": ("edfvd_sensitivity", [*_tasks, _pointer(CBudgets), _pointer(u32)]),
    "scales": ("edfvd_scales", [*_tasks, _pointer(CScaleRange), _pointer(u32)]),
    "speed": ("edfvd_speed", [*_tasks, _pointer(u64), _pointer(u32)]),
    "partition": ("edfvd_partition", [*_tasks, u32, _pointer(u32), _pointer(u32)]),
    "accept": ("edfvd_accept", [u64, u32, u32, _pointer(u32)]),
    "demand": ("edfvd_demand", [PackedDemands, size, _pointer(CDemandTest)]),
    "judge": ("edfvd_judge", [*_tasks, PackedRows, size, u64, u64, _pointer(CVerdict)]),
    "ask": ("edfvd_ask", [
        size, _pointer(ctypes.c_char_p), ctypes.c_char_p, size, ctypes.c_char_p, size, ctypes.c_char_p, size,
        _pointer(size), _pointer(u32),
    ]),
    "scheduler_open": ("edfvd_scheduler_open", [_scheduler, *_tasks, u32, _pointer(u32)]),
    "scheduler_open_endless": ("edfvd_scheduler_open_endless", [_scheduler, *_tasks, _pointer(u32)]),
    "scheduler_open_scaled": ("edfvd_scheduler_open_scaled", [_scheduler, *_tasks, u64, u64, u32, _pointer(u32)]),
    "scheduler_open_endless_scaled": ("edfvd_scheduler_open_endless_scaled", [_scheduler, *_tasks, u64, u64, _pointer(u32)]),
    "scheduler_close": ("edfvd_scheduler_close", [_scheduler]),
    "scheduler_release": ("edfvd_scheduler_release", [_scheduler, u32, _pointer(CAnswer)]),
    "scheduler_grant": ("edfvd_scheduler_grant", [_scheduler, u32, _pointer(CAnswer)]),
    "scheduler_outcome": ("edfvd_scheduler_outcome", [_scheduler, u32, u32, ctypes.c_bool, _pointer(CAnswer)]),
    "scheduler_idle": ("edfvd_scheduler_idle", [_scheduler, _pointer(CAnswer)]),
    "scheduler_run": ("edfvd_scheduler_run", [_scheduler, u32, u32, u32, ctypes.c_bool, _pointer(CAnswer)]),
    "scheduler_idle_for": ("edfvd_scheduler_idle_for", [_scheduler, u64, _pointer(CAnswer)]),
    "scheduler_next": ("edfvd_scheduler_next", [_scheduler, _pointer(CNext)]),
    "scheduler_pending": ("edfvd_scheduler_pending", [_scheduler, u32, _pointer(CPending)]),
    "scheduler_earliest": ("edfvd_scheduler_earliest", [_scheduler, u32, _pointer(u64)]),
    "scheduler_discarded": ("edfvd_scheduler_discarded", [_scheduler, u32, _pointer(u32)]),
    "scheduler_scale": ("edfvd_scheduler_scale", [_scheduler, _pointer(CScale)]),
    "scheduler_look": ("edfvd_scheduler_look", [_scheduler, _pointer(CLook)]),
    "scheduler_row": ("edfvd_scheduler_row", [_scheduler, u64, _pointer(CRow)]),
    "scheduler_rows": ("edfvd_scheduler_rows", [_scheduler, u64, _pointer(CRow), _pointer(u32)]),
    "scheduler_restart": ("edfvd_scheduler_restart", [_scheduler, _pointer(CAnswer)]),
    "monitor_open": ("edfvd_monitor_open", [_monitor, *_tasks, u64, u64, _pointer(u32)]),
    "monitor_close": ("edfvd_monitor_close", [_monitor]),
    "monitor_observe": ("edfvd_monitor_observe", [_monitor, PackedRows, u32, _pointer(CUnfit)]),
    "monitor_observe_all": ("edfvd_monitor_observe_all", [_monitor, PackedRows, size, _pointer(CUnfit)]),
    "monitor_would_fit": ("edfvd_monitor_would_fit", [_monitor, PackedRows, u32, _pointer(CUnfit)]),
    "monitor_late": ("edfvd_monitor_late", [_monitor, u64, _pointer(CLate), size, _pointer(u64)]),
    "monitor_verdict": ("edfvd_monitor_verdict", [_monitor, _pointer(CVerdict)]),
    "monitor_look": ("edfvd_monitor_look", [_monitor, _pointer(CWatch)]),
}


# Calls that come for each row, and take less time than what else ctypes does for a call. They have no prototype in Python, so
# pointers are given as what ctypes.byref returns, rows as bytes, and numbers of 32 bits as ints; and no other thread runs meanwhile.
SHORT = ("monitor_observe", "monitor_would_fit")


def _path() -> str:
    """The library named by ``EDFVD_LIBRARY``, or the one beside this file, or, in a repository without it, the prebuilt one."""
    named = os.environ.get("EDFVD_LIBRARY")
    if named:
        return named
    here = Path(__file__).resolve()
    beside, asked = here.with_name("libedfvd.so"), here.parents[2] / "prebuilt" / "library.sh"
    if beside.exists() or not asked.exists():
        return str(beside)
    try:
        return subprocess.run([str(asked)], check=True, stdout=subprocess.PIPE, stderr=subprocess.PIPE, text=True).stdout.rstrip("\n")
    except subprocess.CalledProcessError as error:
        raise ImportError(f"there is no library of edfvd: {error.stderr.rstrip()}") from error
    except OSError as error:
        raise ImportError(f"there is no library of edfvd; c/build.sh makes it: {error}") from error


class Library:
    """The calls of a library, each under the package's name for it."""

    def __init__(self, path: str) -> None:
        self.path = path
        try:
            loaded, held = ctypes.CDLL(path), ctypes.PyDLL(path)
        except OSError as error:
            raise ImportError(f"the library of edfvd cannot be loaded; c/build.sh makes it: {error}") from error
        try:
            for name, (own_name, arguments) in CALLS.items():
                call = getattr(held if name in SHORT else loaded, own_name)
                call.argtypes, call.restype = None if name in SHORT else arguments, ctypes.c_int
                setattr(self, name, call)
            self.word: Callable[[int], bytes] = loaded.edfvd_word
            loaded.edfvd_word.argtypes, loaded.edfvd_word.restype = [ctypes.c_int], ctypes.c_char_p
            loaded.edfvd_version.argtypes, loaded.edfvd_version.restype = [], u32
        except AttributeError as error:
            raise ImportError(f"{path} is not the library of this package: {error}") from error
        if loaded.edfvd_version() != VERSION:
            raise ImportError(f"{path} has version {loaded.edfvd_version()} of edfvd.h, and this package needs version {VERSION}")


library: Any = Library(_path())
