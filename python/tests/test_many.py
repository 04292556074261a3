"""Many sets at once and arrays of rows, beside the calls that take one; with numpy where it is there."""

import array
import ctypes
import unittest
from fractions import Fraction
from typing import Any, Callable, Iterable, List, Tuple

import edfvd
from edfvd import (
    Event, Monitor, Row, Scheduler, Status, Task, Trace, Unfit, Verdict, Watch, Why, check, check_many, judge,
)
from edfvd._library import CRow, CTask, CTest
from measured import measured
from support import CONTROL, CTL, LOG, TOO_MUCH, TWICE, Case
from test_judge import trace
from test_scheduler import run_ticks

untyped: Any = edfvd
OVERRUN = "kept:ctl:1 kept:log:1 more:ctl:1 over:ctl:1 more:ctl:1*3 done:ctl:1 idle*4"
Fields = List[Tuple[int, ...]]


def structs(kind: Any, fields: Fields) -> Any:
    """An array of ctypes with these fields."""
    return (kind * len(fields))(*fields)


def fields_of(rows: List[Row]) -> Fields:
    """The rows as numbers, with ctl as task 1 and log as task 2."""
    return [(int(row.event), {None: 0, "ctl": 1, "log": 2}[row.task], row.count) for row in rows]


def table(fields: Fields) -> memoryview:
    """The fields as a table of unsigned numbers of 32 bits."""
    numbers = array.array("I", [number for row in fields for number in row])
    return memoryview(numbers).cast("B").cast("I", (len(fields), len(fields[0]))) if fields else memoryview(numbers)


ARRAYS: List[Callable[[Any, Fields], Any]] = [
    structs, lambda kind, fields: memoryview(structs(kind, fields)), lambda kind, fields: table(fields),
    lambda kind, fields: memoryview(structs(kind, fields[::-1]))[::-1],
]


class ManySets(Case):
    def test_lists(self) -> None:
        sets = [CONTROL, [CTL], TOO_MUCH, [Task("a", "low", 4, 1)], tuple(CONTROL), iter(CONTROL)]
        with measured():
            tests = check_many(iter(sets))
        self.assertEqual((list(tests.rules), list(tests.statuses), tests.admitted, len(tests)), ([2, 1, 0, 1, 2, 2], [0] * 6, 5, 6))
        self.assertEqual(list(tests), [check(CONTROL), check([CTL]), check(TOO_MUCH), check(sets[3]), check(CONTROL), check(CONTROL)])
        self.assertEqual(tests[-4:-2], [check(TOO_MUCH), check(sets[3])])
        self.assertEqual(repr(tests), "<Tests of 6 sets, 5 admitted>")
        self.assertEqual((list(check_many([])), check_many([]).rules), ([], b""))
        for place in (6, -7):
            with self.assertRaises(IndexError):
                tests[place]

    def test_refused_sets(self) -> None:
        """A refused set raises where it is looked at, as check does, and hinders no other."""
        tests = check_many([CONTROL, [], [CTL, Task("net", "low", 0, 5)], CONTROL])
        self.assertEqual((list(tests.statuses), list(tests.rules)), ([0, Status.EMPTY, Status.ZERO_NUMBER, 0], [2, 0, 0, 2]))
        self.assertEqual((tests.admitted, tests[3].scale), (2, Fraction(2, 5)))
        for place, status, task in [(1, Status.EMPTY, None), (2, Status.ZERO_NUMBER, "net")]:
            refused = self.refused(lambda: tests[place])
            self.assertEqual((refused.status, refused.task), (status, task))

    def test_one_array(self) -> None:
        """The sets are control, its two tasks alone, and one that is refused, over the same tasks."""
        fields: Fields = [(1, 10, 2, 6), (0, 10, 5, 5), (0, 10, 9, 9), (1, 10, 2, 6), (1, 9, 3, 2)]
        for made in ARRAYS:
            given: List[Iterable[int]] = [[0, 2, 3, 5, 5], array.array("Q", [0, 2, 3, 5, 5]), iter([0, 2, 3, 5, 5])]
            for offsets in given:
                with measured():
                    tests = check_many(made(CTask, fields), offsets)
                self.assertEqual((list(tests.rules), list(tests.statuses)), ([2, 1, 0, 0], [0, 0, Status.BUDGET_ORDER, Status.EMPTY]))
                self.assertEqual(list(tests[:2]), [check(CONTROL), check([Task("a", "low", 10, 9)])])
                refused = self.refused(lambda: tests[2])
                self.assertEqual((refused.status, refused.task), (Status.BUDGET_ORDER, "2"))
                self.assertEqual((tests.structs[0].p, tests.structs[0].q, tests.structs[2].task), (2, 5, 2))
        crowd: Fields = [(0, 1000, 1, 1)] * 129
        self.assertEqual(list(check_many(structs(CTask, crowd), [0, 128, 129, 129]).statuses), [0, 0, Status.EMPTY])
        self.assertEqual(list(check_many(structs(CTask, crowd), [0, 129]).statuses), [Status.TOO_MANY])
        self.assertEqual(list(check_many(structs(CTask, [(2, 4, 1, 1)]), [0, 1]).statuses), [Status.LEVEL])
        self.assertEqual(len(check_many(structs(CTask, crowd), [7])), 0)

    def test_wrong_offsets(self) -> None:
        one = structs(CTask, [(0, 4, 1, 1)] * 3)
        outside: List[List[int]] = [[], [0, 4], [2, 1], [0, 2, 1], [4], [-1, 2], [0, 2**64]]
        for offsets in outside:
            with self.subTest(offsets=offsets), self.assertRaises(ValueError):
                check_many(one, offsets)
        for wrong in ([0, 1.0], ["0"], [None], 5, [True, 2]):
            with self.subTest(offsets=wrong), self.assertRaises(TypeError):
                untyped.check_many(one, wrong)

    def test_what_is_no_array_of_tasks(self) -> None:
        class Turned(ctypes.Structure):
            _fields_ = [("period", ctypes.c_uint32), ("level", ctypes.c_uint32), ("low", ctypes.c_uint32), ("high", ctypes.c_uint32)]

        class Signed(ctypes.Structure):
            _fields_ = [(name, ctypes.c_int32) for name in ("level", "period", "low", "high")]

        class Large(ctypes.BigEndianStructure):
            _fields_ = [(name, ctypes.c_uint32) for name in ("level", "period", "low", "high")]

        wrong: List[Any] = [
            CONTROL, b"0" * 48, array.array("I", [0] * 12), (Turned * 3)(), (Signed * 3)(), (Large * 3)(), (CRow * 3)(), (CTest * 3)(),
            table([(1, 2, 3)] * 3), table([(1, 10, 2, 6, 0)] * 3), memoryview(bytearray(48)).cast("i", (3, 4)), memoryview(bytearray(96)).cast("Q", (3, 4)), None, 5,
        ]
        for value in wrong:
            with self.subTest(value=type(value)), self.assertRaises(TypeError):
                check_many(value, [0, 1])
        for value in (5, None, [5], [CTL], "ctl", (CTask * 3)(), memoryview((CTask * 3)())):
            with self.subTest(value=type(value)), self.assertRaises(TypeError):
                check_many(value)


class ArraysOfRows(Case):
    def test_judged(self) -> None:
        for text, verdict in [
            (OVERRUN, Verdict(None, None, 0, None)), ("kept:ctl:1 idle", Verdict(Why.IDLE_PENDING, 2, 0, None)), ("", Verdict(None, None, 0, None)),
        ]:
            rows = trace(text)
            for made in ARRAYS if text else [structs]:
                with measured():
                    self.assertEqual(judge(CONTROL, made(CRow, fields_of(rows))), verdict)
            self.assertEqual(judge(CONTROL, Trace.of(rows)), verdict)

    def test_refused(self) -> None:
        for fields, status in [((3, 1, 1), Status.ARGUMENT), ((9, 1, 0), Status.ARGUMENT), ((1, 3, 1), Status.NO_TASK), ((99, 1, 1), Status.ARGUMENT)]:
            for made in ARRAYS:
                given = made(CRow, [(9, 0, 0), fields])
                self.assertIs(self.refused(lambda: judge(CONTROL, given)).status, status)
                with Monitor(CONTROL) as monitor:
                    self.assertIs(self.refused(lambda: monitor.observe_all(given)).status, status)
                    self.assertEqual(monitor.look().rows, 1)
        wrong: List[Any] = [b"0" * 24, array.array("I", [9, 0, 0]), (CTask * 3)(), memoryview(b"123"), table([(9, 0, 0, 0)] * 3)]
        for value in wrong:
            with self.subTest(value=type(value)), self.assertRaises(TypeError):
                judge(CONTROL, value)
            with self.subTest(value=type(value)), self.assertRaises(TypeError), Monitor(CONTROL) as monitor:
                monitor.observe_all(value)

    def test_too_many_rows(self) -> None:
        for times in (2_000_001, 10**11, 2**62):
            self.assertIs(self.refused(lambda: judge([LOG], Trace([(Row(Event.IDLE), times)]))).status, Status.FULL)
        self.assertTrue(judge([LOG], Trace([(Row(Event.IDLE), 2_000_000)])).legal)

    def test_observed_at_once(self) -> None:
        """What is pending after the rows, the first that does not fit, and that no row after it is taken."""
        rows = trace(OVERRUN)
        given: List[Callable[[], Any]] = [
            lambda: rows, lambda: iter(rows), lambda: Trace.of(rows), *(lambda made=made: made(CRow, fields_of(rows)) for made in ARRAYS),
        ]
        for one in given:
            with measured(), Monitor(CONTROL) as monitor:
                self.assertIsNone(monitor.observe_all(one()))
                self.assertEqual(monitor.look(), Watch(12, True, 10, 0, False))
                self.assertEqual(monitor.observe_all(one()), Unfit(Why.WRONG_COUNT, 13))
                self.assertFalse(monitor.look().legal)
                self.assertEqual(monitor.observe_all(one()), Unfit(Why.WRONG_COUNT, 13))
                self.assertIsNone(Monitor(CONTROL).observe_all([]))

    def test_a_wrong_row_in_the_middle(self) -> None:
        """The rows before it are taken, whether it is wrong in Python or for the library."""
        for wrong, kind in [(5, TypeError), (Row(Event.KEPT, "no", 1), ValueError), (Row(Event.HELD, "ctl", 1), untyped.Refused)]:
            for before in (3, 5000):
                with Monitor(CONTROL) as monitor, self.assertRaises(kind):
                    try:
                        monitor.observe_all([*[Row(Event.IDLE)] * before, wrong, Row(Event.IDLE)])  # type: ignore[list-item]
                    finally:
                        self.assertEqual(monitor.look().rows, before)

    def test_no_row_is_read_long_after_one_that_does_not_fit(self) -> None:
        """The rows are read some at once, and those that come later are neither taken nor looked at."""
        with Monitor(CONTROL) as monitor:
            rows = [Row(Event.KEPT, "ctl", 2), *[Row(Event.IDLE)] * 5000, 5]
            self.assertEqual(monitor.observe_all(rows), Unfit(Why.WRONG_COUNT, 1))  # type: ignore[arg-type]

    def test_long_runs(self) -> None:
        with Monitor(CONTROL) as monitor:
            self.assertIsNone(monitor.observe_all(Trace([(Row(Event.IDLE), 3 * 2**32)])))
            self.assertEqual((monitor.look().rows, monitor.look().ticks), (3 * 2**32, 3 * 2**32))
        with Monitor(TWICE, Fraction(1)) as monitor:
            rows = trace("kept:a:1 kept:b:1 more:a:1*4")
            self.assertEqual(monitor.observe_all(Trace.of(rows)), Unfit(Why.WRONG_HOW, 6))

    def test_rows_of_a_scheduler(self) -> None:
        with Scheduler(CONTROL, places=1000) as scheduler, Monitor(CONTROL) as monitor:
            run_ticks(scheduler, 200)
            rows, made = list(scheduler.rows()), scheduler.row_array()
            self.assertEqual([(row.event, row.task, row.count) for row in made], fields_of(rows))
            self.assertEqual(bytes(scheduler.row_array(since=7)), bytes(made)[7 * 12:])
            self.assertEqual(len(scheduler.row_array(since=len(rows) + 1)), 0)
            self.assertIsNone(monitor.observe_all(made))
            self.assertEqual((monitor.verdict(), judge(CONTROL, made)), (judge(CONTROL, rows), judge(CONTROL, rows)))
        with Scheduler.endless(CONTROL) as scheduler:
            for _ in range(300):
                scheduler.idle()
            self.assertEqual(len(scheduler.row_array()), 300)  # 300 equal rows are one run
            run_ticks(scheduler, 1000)
            self.assertIs(self.refused(scheduler.row_array).status, Status.GONE)
        self.assertIs(self.refused(scheduler.row_array).status, Status.CLOSED)


class WithNumpy(Case):
    def setUp(self) -> None:
        try:
            import numpy
        except ImportError:
            self.skipTest("there is no numpy")
        self.numpy: Any = numpy

    def test_sets(self) -> None:
        kind = self.numpy.dtype([(name, self.numpy.uint32) for name in ("level", "period", "low", "high")])
        tasks = self.numpy.array([(1, 10, 2, 6), (0, 10, 5, 5), (0, 10, 9, 9)], dtype=kind)
        offsets = self.numpy.array([0, 2, 3], dtype=self.numpy.int64)
        tests = check_many(tasks, offsets)
        self.assertEqual(list(tests), [check(CONTROL), check([Task("a", "low", 10, 9)])])
        found = self.numpy.asarray(tests.structs)
        self.assertEqual((list(found["rule"]), list(found["p"]), list(found["q"])), ([2, 1], [2, 0], [5, 0]))
        self.assertEqual(list(self.numpy.frombuffer(tests.rules, dtype=self.numpy.uint8)), [2, 1])
        self.assertEqual(check_many(self.numpy.array([[1, 10, 2, 6], [0, 10, 5, 5]], dtype=self.numpy.uint32), [0, 2])[0], check(CONTROL))
        self.assertEqual(check_many(tasks[::-1], [0, 1, 3])[1], check(list(reversed(CONTROL))))
        for wrong in (tasks.astype([(name, "u8") for name in kind.names]), tasks.view("u4"), tasks["low"]):
            with self.assertRaises(TypeError):
                check_many(wrong, offsets)

    def test_rows(self) -> None:
        with Scheduler(CONTROL, places=1000) as scheduler:
            run_ticks(scheduler, 50)
            rows = self.numpy.asarray(scheduler.row_array())
        self.assertEqual(rows.dtype.names, ("event", "task", "count"))
        self.assertTrue(judge(CONTROL, rows).legal)
        with Monitor(CONTROL) as monitor:
            self.assertIsNone(monitor.observe_all(rows))
            self.assertEqual(monitor.look().rows, len(rows))
        self.assertTrue(judge(CONTROL, self.numpy.array([Row(Event.IDLE)] * 3, dtype=object)).legal)
        with self.assertRaises(TypeError):
            judge(CONTROL, self.numpy.array(["2026-12-01"], dtype="M8[D]"))


if __name__ == "__main__":
    unittest.main()
