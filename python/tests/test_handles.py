"""Schedulers and monitors as owners of memory: opened once, never copied, and freed exactly once."""

import copy
import gc
import pickle
import sys
import unittest
from typing import Any, Callable, List, Tuple
from unittest import mock

from edfvd import Event, Monitor, Row, Scheduler, Status, Task, _library
from support import CONTROL, TOO_MUCH, Case

# Each kind of handle, with a call that changes it.
KINDS: List[Tuple[Callable[[], Any], Callable[[Any], object]]] = [
    (lambda: Scheduler(CONTROL, 100), lambda handle: handle.idle()),
    (lambda: Scheduler.endless(CONTROL), lambda handle: handle.idle()),
    (lambda: Monitor(CONTROL), lambda handle: handle.observe(Row(Event.IDLE))),
]


class Counted:
    """The calls of the library that open and close, with how many handles are open."""

    def __init__(self) -> None:
        self.open = 0

    def __enter__(self) -> "Counted":
        gc.collect()
        steps = {"scheduler_open": 1, "scheduler_open_endless": 1, "monitor_open": 1}
        self.patches = [self.patched(_library.library, name, step) for name, step in steps.items()]
        self.patches += [self.patched(kind, "_free", -1) for kind in (Scheduler, Monitor)]
        for patch in self.patches:
            patch.start()
        return self

    def patched(self, owner: Any, name: str, step: int) -> Any:
        call = getattr(owner, name)

        def counted(*given: Any) -> int:
            status: int = call(*given)
            self.open += step if status == 0 else 0
            return status

        return mock.patch.object(owner, name, staticmethod(counted) if isinstance(owner, type) else counted)

    def __exit__(self, *error: object) -> None:
        gc.collect()
        for patch in self.patches:
            patch.stop()


class Closing(Case):
    def test_closed(self) -> None:
        for make, change in KINDS:
            handle = make()
            with handle as inside:
                self.assertIs(inside, handle)
                change(handle)
            self.assertIs(self.refused(lambda: change(handle)).status, Status.CLOSED)
            handle.close()
            calls: List[Callable[[], object]] = [lambda: change(handle), lambda: handle.look()]
            for call in calls:
                refused = self.refused(call)
                self.assertEqual((refused.status, str(refused)), (Status.CLOSED, "closed"))
        for call in (handle.verdict, lambda: handle.late(0), lambda: handle.would_fit(Row(Event.IDLE))):
            self.assertIs(self.refused(call).status, Status.CLOSED)

    def test_rows_of_a_closed_scheduler(self) -> None:
        scheduler = Scheduler(CONTROL, 10)
        scheduler.idle()
        rows = scheduler.rows()
        scheduler.close()
        self.assertIs(self.refused(lambda: next(rows)).status, Status.CLOSED)
        self.assertIs(self.refused(scheduler.rows).status, Status.CLOSED)

    def test_closing_while_another_thread_is_in_a_call(self) -> None:
        """It is refused, the handle stays open, and it can be closed when that call is over."""
        for make, change in KINDS:
            handle = make()
            handle._held.handle.busy = 1
            self.assertIs(self.refused(handle.close).status, Status.BUSY)
            self.assertIs(self.refused(lambda: change(handle)).status, Status.BUSY)
            handle._held.handle.busy = 0
            change(handle)
            handle.close()
            self.assertIs(self.refused(lambda: change(handle)).status, Status.CLOSED)

    def test_a_with_block_passes_its_error_on(self) -> None:
        for make, _ in KINDS:
            with self.assertRaisesRegex(KeyError, "mine"):
                with make():
                    raise KeyError("mine")


class Copies(Case):
    def test_copies_are_refused(self) -> None:
        for make, change in KINDS:
            handle = make()
            ways: List[Callable[[Any], object]] = [copy.copy, copy.deepcopy, pickle.dumps]
            for way in ways:
                with self.assertRaisesRegex(TypeError, f"a {type(handle).__name__} cannot be copied or pickled"):
                    way(handle)
            gc.collect()
            change(handle)
            handle.close()


class Shown(Case):
    def test_each_state(self) -> None:
        with Scheduler(CONTROL, 100) as scheduler, Monitor(CONTROL) as monitor:
            scheduler.idle()
            scheduler.release("ctl")
            monitor.observe(Row(Event.IDLE))
            self.assertEqual(repr(scheduler), "<Scheduler of 2 tasks, 1 ticks, 2 rows>")
            self.assertEqual(repr(monitor), "<Monitor of 2 tasks, 1 rows, legal>")
            monitor.observe(Row(Event.KEPT, "ctl", 2))
            self.assertEqual(repr(monitor), "<Monitor of 2 tasks, 1 rows, illegal>")
        self.assertEqual((repr(scheduler), repr(monitor)), ("<Scheduler, closed>", "<Monitor, closed>"))


class Opening(Case):
    def test_a_second_time(self) -> None:
        """An open handle is not opened again, and keeps its tasks; a closed one may be."""
        other = [Task("a", "low", 4, 2)]
        with Scheduler(CONTROL, 100) as scheduler:
            scheduler.release("ctl")
            self.assertIs(self.refused(lambda: scheduler.__init__(other, 10)).status, Status.OPEN)  # type: ignore[misc]
            self.assertEqual(scheduler.look().chosen, ("ctl", 1))
            scheduler.close()
            scheduler.__init__(other, 10)  # type: ignore[misc]
            self.assertEqual(scheduler.release("a").task, "a")
        with Monitor(CONTROL) as monitor:
            monitor.observe(Row(Event.KEPT, "ctl", 1))
            self.assertIs(self.refused(lambda: monitor.__init__(other)).status, Status.OPEN)  # type: ignore[misc]
            self.assertEqual(monitor.look().pending, 1)

    def test_never_opened(self) -> None:
        """What was made without being opened is closed without a word."""
        reports: List[Any] = []
        with mock.patch.object(sys, "unraisablehook", reports.append):
            kind: Any
            for kind in (Scheduler, Monitor):
                handle = kind.__new__(kind)
                handle.close()
                self.assertIs(self.refused(handle.look).status, Status.NULL)
                del handle
                with self.assertRaises(TypeError):
                    kind(5, 1)
            gc.collect()
        self.assertEqual(reports, [])


class Freed(Case):
    def test_each_way(self) -> None:
        """Whatever becomes of a handle, the memory that was taken is freed, and once."""
        with Counted() as counted:
            for make, change in KINDS:
                make()
                self.assertEqual(counted.open, 0, "dropped")
                handle = make()
                self.assertEqual(counted.open, 1)
                handle.close()
                handle.close()
                del handle
                self.assertEqual(counted.open, 0, "closed twice, and dropped")
                ring = [make()]
                ring.append(ring)
                del ring
                gc.collect()
                self.assertEqual(counted.open, 0, "in a ring")
                handle = make()
                given: Any
                for given in (TOO_MUCH, CONTROL, 5):
                    with self.assertRaises(Exception):
                        type(handle).__init__(handle, given, 10 if isinstance(handle, Scheduler) else None)
                change(handle)
                del handle
                self.assertEqual(counted.open, 0, "opened a second time")
            kinds: List[Callable[[Any], object]] = [lambda tasks: Scheduler(tasks, 10), Scheduler.endless, Monitor]
            for kind in kinds:
                for given in (TOO_MUCH, [], 5):
                    with self.assertRaises(Exception):
                        kind(given)
            self.assertEqual(counted.open, 0, "refused")


if __name__ == "__main__":
    unittest.main()
