"""Lists and bytes that change while a call reads them: each call takes a copy, and the lengths that it passes are those of it."""

import re
import threading
import unittest
from fractions import Fraction
from pathlib import Path
from typing import Any, Callable, List, Tuple

from edfvd import Demand, EdfvdError, Event, Monitor, Row, Scheduler, Task, ask, check, demand, judge, partition, run, stretch
from edfvd import _library
from measured import LENGTHS, ONE, measured
from support import CONTROL

HEADER = Path(__file__).resolve().parents[2] / "c" / "edfvd.h"

CALLS: List[Tuple[str, Callable[[Any], object]]] = [
    ("check", check), ("stretch", stretch), ("partition", lambda tasks: partition(tasks, 2)),
    ("judge", lambda tasks: judge(tasks, [])), ("run", lambda tasks: run(tasks, [], 1)),
    ("Scheduler", lambda tasks: Scheduler(tasks, 1)), ("endless", Scheduler.endless), ("Monitor", Monitor),
    ("scaled", lambda tasks: Scheduler.scaled(tasks, Fraction(1, 2), 1)), ("endless, scaled", lambda tasks: Scheduler.scaled(tasks, None)),
]
MORE = [Task(f"x{place}", "low", 100_000, 1) for place in range(100)]
MORE_DEMANDS = [Demand(f"x{place}", 1000, 500, 1) for place in range(100)]


class Hook:
    """What is called each time one field of a changing element is read."""

    field = ""
    call: Callable[[], object] = staticmethod(lambda: None)

    @classmethod
    def set(cls, field: str, call: Callable[[], object]) -> None:
        cls.field, cls.call = field, staticmethod(call)


class ChangingTask(Task):
    def __getattribute__(self, name: str) -> Any:
        if name == Hook.field:
            Hook.call()
        return super().__getattribute__(name)


class ChangingDemand(Demand):
    def __getattribute__(self, name: str) -> Any:
        if name == Hook.field:
            Hook.call()
        return super().__getattribute__(name)


class ChangingRow(Row):
    def __getattribute__(self, name: str) -> Any:
        if name == Hook.field:
            Hook.call()
        return super().__getattribute__(name)


class ChangingBytes(bytearray):
    """Bytes whose copy is shorter than they are."""

    def __bytes__(self) -> bytes:
        return b"task"


class Changing(unittest.TestCase):
    def setUp(self) -> None:
        self.addCleanup(Hook.set, "", lambda: None)

    def test_lengths_are_measured(self) -> None:
        """Each call that takes a length is among those that are watched, and a false length is caught."""
        if HEADER.exists():
            calls = re.findall(r"^edfvd_status (edfvd_\w+)\((.*?)\);", HEADER.read_text(), re.S | re.M)
            with_lengths = {name for name, given in calls if re.search(r"size_t \w", given)}
            self.assertEqual(with_lengths, {_library.CALLS[name][0] for name in LENGTHS})
            of_one_row = {name for name, given in calls if "const edfvd_row *row," in given}
            self.assertEqual(of_one_row, {_library.CALLS[name][0] for name in ONE})
        with measured(), self.assertRaises(AssertionError):
            _library.library.check(bytes(31), 2, _library.CTest())
        with measured(), Monitor(CONTROL) as monitor, self.assertRaises(AssertionError):
            _library.library.monitor_observe(monitor._held, bytes(11), 1, _library.CUnfit())
        with measured(), self.assertRaises(AssertionError):
            _library.library.check_many(bytes(16), 1, bytes(15), 1, (_library.CTest * 1)(), (_library.u32 * 1)())

    def test_a_list_that_grows(self) -> None:
        for name, call in CALLS:
            for field in ("name", "level", "period", "low", "high"):
                tasks: List[Task] = [ChangingTask("a", "low", 10, 1)]
                Hook.set(field, lambda: tasks.extend(MORE if len(tasks) < 2 else []))
                with self.subTest(call=name, field=field), measured():
                    call(tasks)
                self.assertEqual(len(tasks), 101)

    def test_a_list_that_shrinks(self) -> None:
        for name, call in CALLS:
            for field in ("name", "level", "period", "low", "high"):
                tasks: List[Task] = [ChangingTask("a", "low", 10, 1), *MORE]
                Hook.set(field, lambda: tasks.clear())
                with self.subTest(call=name, field=field), measured():
                    call(tasks)
                self.assertEqual(tasks, [])

    def test_names_are_those_of_the_call(self) -> None:
        tasks: List[Task] = [ChangingTask("a", "low", 10, 1), Task("b", "low", 10, 1)]
        Hook.set("low", lambda: tasks.reverse())
        with measured():
            self.assertEqual(partition(tasks, 1), [["a", "b"]])

    def test_demands(self) -> None:
        for field in ("name", "period", "deadline", "budget"):
            tasks: List[Demand] = [ChangingDemand("a", 10, 5, 1)]
            Hook.set(field, lambda: tasks.extend(MORE_DEMANDS if len(tasks) < 2 else []))
            with self.subTest(field=field), measured():
                self.assertTrue(demand(tasks).schedulable)

    def test_rows(self) -> None:
        for field in ("event", "task", "count"):
            rows: List[Row] = [ChangingRow(Event.KEPT, "x0", 1)]
            Hook.set(field, lambda: rows.extend([Row(Event.IDLE)] * 100 if len(rows) < 2 else []))
            with self.subTest(field=field), measured():
                self.assertTrue(judge(MORE, rows).legal)

    def test_bytes(self) -> None:
        with measured():
            self.assertEqual(ask(["check", "1"], ChangingBytes(b" " * 10_000)), (3, b"task file: not TOML\n"))
            self.assertEqual(ask(["check", "2"], b"", ChangingBytes(b" " * 10_000)), (3, b"task file: not TOML\n"))

    def test_a_list_that_another_thread_changes(self) -> None:
        tasks, stop = MORE[:20], threading.Event()

        def change() -> None:
            while not stop.is_set():
                tasks.extend(MORE[20:])
                del tasks[20:]

        thread = threading.Thread(target=change)
        thread.start()
        try:
            with measured():
                for _ in range(300):
                    try:
                        self.assertIn(sum(map(len, partition(tasks, 2))), range(20, 101))
                    except (EdfvdError, ValueError):  # the list may be caught with a task in it twice
                        pass
        finally:
            stop.set()
            thread.join()


if __name__ == "__main__":
    unittest.main()
