"""A monitor's findings, late jobs, verdicts and watches, by hand and beside the judge."""

import unittest
from fractions import Fraction
from typing import Any, Callable, List, Tuple
from unittest import mock

from edfvd import Event, Late, Monitor, Refused, Row, Scheduler, Status, Task, Trace, Unfit, Verdict, Watch, Why, _library, _monitor, judge
from support import CONTROL, CTL, TOO_MUCH, TWICE, Case
from test_judge import trace
from test_scheduler import run_ticks


class Watching(Case):
    def test_each_watch(self) -> None:
        """The clock, the pending jobs and the mode, after each row of an overrun that discards a job of log."""
        with Monitor(CONTROL) as monitor:
            self.assertEqual(monitor.look(), Watch(rows=0, legal=True, ticks=0, pending=0, high_mode=False))
            for text, ticks, pending, high_mode in [
                ("kept:ctl:1", 0, 1, False),
                ("kept:log:1", 0, 2, False),
                ("more:ctl:1", 1, 2, False),
                ("over:ctl:1", 2, 1, True),
                ("done:ctl:1", 3, 0, True),
                ("idle", 4, 0, False),
            ]:
                before = monitor.look()
                self.assertIsNone(monitor.observe(trace(text)[0]))
                self.assertEqual(monitor.look(), Watch(before.rows + 1, True, ticks, pending, high_mode), text)
                self.assertIs(monitor.look().high_mode, high_mode)
                self.assertIs(monitor.look().legal, True)
            self.assertEqual(monitor.verdict(), Verdict(None, None, 0, None))

    def test_many_times(self) -> None:
        with Monitor(TWICE, Fraction(1)) as monitor:
            for row in trace("kept:a:1 kept:b:1"):
                monitor.observe(row)
            self.assertEqual(monitor.would_fit(Row(Event.MORE, "a", 1), 4), Unfit(Why.WRONG_HOW, 6))
            self.assertIsNone(monitor.observe(Row(Event.MORE, "a", 1), times=3))
            self.assertEqual(monitor.look(), Watch(5, True, 3, 2, False))
            for row, times in [(Row(Event.KEPT, "a", 2), 2), (Row(Event.DONE, "a", 1), 2), (Row(Event.MORE, "a", 1), 0)]:
                with self.subTest(row=row):
                    self.assertIs(self.refused(lambda: monitor.observe(row, times)).status, Status.ARGUMENT)

    def test_a_row_that_does_not_fit(self) -> None:
        with Monitor(CONTROL) as monitor:
            monitor.observe(Row(Event.KEPT, "ctl", 1))
            wrong = Unfit(Why.WRONG_COUNT, 2)
            self.assertEqual(monitor.would_fit(Row(Event.KEPT, "log", 9)), wrong)
            self.assertEqual(monitor.look().rows, 1)
            self.assertTrue(monitor.look().legal)
            self.assertIsNone(monitor.would_fit(Row(Event.KEPT, "log", 1)))
            self.assertEqual(monitor.observe(Row(Event.KEPT, "log", 9)), wrong)
            self.assertEqual(monitor.observe(Row(Event.IDLE)), wrong)
            self.assertEqual((monitor.look().rows, monitor.look().legal), (1, False))
            self.assertEqual(monitor.verdict(), Verdict(Why.WRONG_COUNT, 2, 0, None))

    def test_a_run_that_breaks_in_its_middle(self) -> None:
        with Monitor(CONTROL) as monitor:
            monitor.observe(Row(Event.KEPT, "ctl", 1))
            self.assertEqual(monitor.observe(Row(Event.MORE, "ctl", 1), times=5), Unfit(Why.WRONG_HOW, 3))
            self.assertEqual(monitor.look(), Watch(2, False, 1, 1, False))
            self.assertEqual(monitor.late(0), [])
            self.assertEqual(monitor.observe(Row(Event.MORE, "ctl", 1), times=5), Unfit(Why.WRONG_HOW, 3))
            self.assertEqual(monitor.look(), Watch(2, False, 1, 1, False))

    def test_beside_the_judge(self) -> None:
        """A schedule that is watched row by row has the judge's verdict on the rows so far."""
        with Scheduler(CONTROL, places=1000) as scheduler:
            run_ticks(scheduler, 40)
            rows = list(scheduler.rows())
        with Monitor(CONTROL) as monitor:
            for place, row in enumerate(rows, 1):
                self.assertIsNone(monitor.would_fit(row))
                self.assertIsNone(monitor.observe(row))
                self.assertEqual(monitor.verdict(), judge(CONTROL, rows[:place]))
            self.assertEqual((monitor.look().rows, monitor.look().ticks), (len(rows), 40))

    def test_scale_of_the_caller(self) -> None:
        rows = trace("kept:log:1 more:log:1 more:log:1 more:log:1 kept:ctl:1")
        for scale, why in [(None, Why.NOT_LEAST), (Fraction(69, 100), Why.NOT_LEAST), (Fraction(71, 100), None)]:
            with self.subTest(scale=scale), Monitor(CONTROL, scale) as monitor:
                for row in rows:
                    self.assertIsNone(monitor.observe(row))
                found = monitor.observe(Row(Event.MORE, "log", 1))
                self.assertEqual(found, Unfit(why, 6) if why else None)


class Named(Case):
    def test_the_names_are_those_of_the_open_set(self) -> None:
        """One that was never opened knows no task, and one that is opened again knows those of its new set; a refused opening changes
        nothing."""
        monitor: Any = Monitor.__new__(Monitor)
        self.assertIs(self.refused(lambda: monitor.observe(Row(Event.IDLE))).status, Status.NULL)
        for tasks, name, other in ((CONTROL, "log", "b"), (TWICE, "b", "log")):
            monitor.__init__(tasks, Fraction(1))
            self.assertIs(self.refused(lambda: monitor.__init__([Task("c", "low", 4, 1)])).status, Status.OPEN)
            for unknown in (other, "c"):
                with self.assertRaisesRegex(ValueError, f"^a row's task '{unknown}' is not in the set$"):
                    monitor.observe(Row(Event.KEPT, unknown, 1))
            self.assertIsNone(monitor.observe(Row(Event.KEPT, name, 1)))
            self.assertIsNone(monitor.observe(Row(Event.DONE, name, 1)))
            monitor.close()

    def test_attributes_of_a_class_of_your_own(self) -> None:
        class OfMyOwn(Monitor):
            def __init__(self) -> None:
                self.before = 1
                super().__init__(CONTROL)
                self.after = 2

        with OfMyOwn() as monitor:
            self.assertEqual((monitor.before, monitor.after, monitor.observe(Row(Event.IDLE))), (1, 2, None))

    def test_fields_of_a_class_of_your_own_are_read_once(self) -> None:
        read: List[str] = []

        class OfMyOwn(Row):
            def __getattribute__(self, name: str) -> Any:
                read.append(name)
                return super().__getattribute__(name)

        with Monitor(CONTROL) as monitor:
            rows: List[Row] = [OfMyOwn(Event.KEPT, "ctl", 1), OfMyOwn(9, "x", 1)]  # type: ignore[arg-type]
            read.clear()
            self.assertIsNone(monitor.observe(rows[0]))
            with self.assertRaises(ValueError):
                monitor.observe(rows[1])
            self.assertEqual([name for name in read if not name.startswith("__")], ["event", "task", "count"] * 2)

    def test_a_field_that_is_not_as_most_are(self) -> None:
        """It is looked at once, by the rules of each field: a name of a class of your own is read as the text that it is, a number of
        one as its number, and a truth value is no number."""
        class Text(str):
            def __hash__(self) -> int:
                raise AssertionError("hashed")

        class Count(int):
            def __index__(self) -> int:
                raise AssertionError("read")

        untyped: Any = Row
        with Monitor(CONTROL) as monitor:
            self.assertIsNone(monitor.observe(untyped(1, Text("ctl"), Count(1))))
            self.assertIsNone(monitor.observe(untyped(Event.MORE, Text("ctl"), 1)))
            self.assertEqual(monitor.look(), Watch(2, True, 1, 1, False))
            for row, words in [
                (untyped(Event.OVER, "ctl", True), "a row's count must be a whole number, not bool"),
                (untyped(True, "ctl", 1), "a row's event must be an Event, such as Event.KEPT, not bool"),
                (untyped(8.0, "ctl", 1), "a row's event must be an Event, such as Event.KEPT, not float"),
                (untyped(Event.OVER, b"ctl", 1), "a task's name must be a str, not bytes"),
                (untyped(Event.OVER, 1, 1), "a task's name must be a str, not int"),
            ]:
                with self.subTest(row=row), self.assertRaisesRegex(TypeError, f"^{words}$"):
                    monitor.observe(row)
            with self.assertRaisesRegex(ValueError, "^a row's event is 10, "):
                monitor.observe(untyped(10, "ctl", 1))
            self.assertEqual(monitor.look().rows, 2)


class Threads(Case):
    def test_what_another_thread_finds_meanwhile(self) -> None:
        """Before the result of a call is read, another thread has a call of its own monitor: neither gets the result of the other."""
        observe = _library.library.monitor_observe
        meanwhile: List[Monitor] = []
        found: List[Any] = []

        def with_another(*given: Any) -> int:
            status: int = observe(*given)
            if meanwhile:
                found.append(meanwhile.pop().observe(Row(Event.IDLE)))
            return status

        unfit = Unfit(Why.IDLE_PENDING, 2)
        for is_pending, results in ((False, [unfit, None]), (True, [None, unfit])):
            with Monitor(CONTROL) as monitor, Monitor(CONTROL) as other:
                (monitor if is_pending else other).observe(Row(Event.KEPT, "ctl", 1))
                meanwhile.append(other)
                with mock.patch.object(_library.library, "monitor_observe", with_another):
                    found.append(monitor.observe(Row(Event.IDLE)))
                self.assertEqual(found, results)
                found.clear()

    def test_what_another_thread_finds_at_once_after_it(self) -> None:
        """Another thread has the memory of a call as soon as it is given back: by then the call has read its result."""
        meanwhile: List[Monitor] = []
        found: List[Any] = []

        def given_back(spare: Any) -> None:
            _monitor._spares.append(spare)
            if meanwhile:
                found.append(meanwhile.pop().observe(Row(Event.IDLE)))

        with Monitor(CONTROL) as monitor, Monitor(CONTROL) as other:
            other.observe(Row(Event.KEPT, "ctl", 1))
            meanwhile.append(other)
            with mock.patch.object(_monitor, "_back", given_back):
                found.append(monitor.observe(Row(Event.IDLE)))
        self.assertEqual(found, [Unfit(Why.IDLE_PENDING, 2), None])


class LateJobs(Case):
    def test_late(self) -> None:
        with Monitor(TWICE, Fraction(1)) as monitor:
            for row in trace("kept:a:1 kept:b:1 more:a:1 more:a:1 more:a:1 done:a:1"):
                monitor.observe(row)
            self.assertEqual(monitor.verdict(), Verdict(None, None, 1, ("b", 1)))
            self.assertEqual(monitor.late(3), [Late("b", 1, 4)])
            self.assertEqual(monitor.late(since=0), [Late("b", 1, 4)])
            self.assertEqual(monitor.late(4), [])

    def test_late_job_that_is_not_the_first_of_its_task(self) -> None:
        with Monitor(iter(TWICE), Fraction(1)) as monitor:
            for row in trace("kept:a:1 more:a:1*3 done:a:1 kept:a:2 kept:b:1 more:b:1*3 done:b:1"):
                self.assertIsNone(monitor.observe(row))
            self.assertEqual(monitor.late(7), [Late("a", 2, 8)])
            self.assertEqual(monitor.verdict(), Verdict(None, None, 1, ("a", 2)))

    def test_after_many_ticks(self) -> None:
        """Two jobs are released after 3 times 2^32 - 1 ticks, and the second one is late 4 ticks later."""
        with Monitor(TWICE, Fraction(1)) as monitor:
            for _ in range(3):
                self.assertIsNone(monitor.observe(Row(Event.IDLE), times=2**32 - 1))
            now = monitor.look().ticks
            for row in trace("kept:a:1 kept:b:1 more:a:1 more:a:1 more:a:1 done:a:1"):
                self.assertIsNone(monitor.observe(row))
            self.assertEqual(monitor.late(since=now + 3), [Late("b", 1, now + 4)])
            self.assertEqual(monitor.late(since=now + 4), [])

    def test_more_than_one_array_takes(self) -> None:
        """A hundred tasks with deadlines from 100 down to 1: the last one has all ticks, and each job is late at 199."""
        crowd = [Task(f"t{100 - deadline}", "low", deadline, 300) for deadline in range(100, 0, -1)]
        with Monitor(crowd, Fraction(1)) as monitor:
            for task in crowd:
                monitor.observe(Row(Event.KEPT, task.name, 1))
            self.assertIsNone(monitor.observe(Row(Event.MORE, "t99", 1), times=199))
            late = [Late(f"t{100 - deadline}", 1, deadline) for deadline in range(1, 101)]
            for since in (0, 50, 92, 99, 100):
                self.assertEqual(monitor.late(since), late[since:], since)
            self.assertEqual(monitor.verdict(), Verdict(None, None, 100, ("t0", 1)))


class Refusals(Case):
    def test_opening(self) -> None:
        cases: List[Tuple[Any, ...]] = [
            ([], None, Status.EMPTY, None),
            ([CTL, Task("log", "low", 0, 5)], Fraction(1), Status.ZERO_NUMBER, "log"),
            (TOO_MUCH, None, Status.NOT_ADMITTED, None),
            (CONTROL, Fraction(1, 2**60 + 1), Status.ARGUMENT, None),
        ]
        for tasks, scale, status, task in cases:
            with self.subTest(tasks=tasks, scale=scale):
                refused = self.refused(lambda: Monitor(tasks, scale))
                self.assertEqual((refused.status, refused.task), (status, task))

    def test_rows(self) -> None:
        with Monitor(CONTROL) as monitor:
            for row, status in [
                (Row(Event.HELD, "ctl", 1), Status.ARGUMENT), (Row(Event.GIVEN, "ctl", 1), Status.ARGUMENT),
                (Row(Event.IDLE, "ctl"), Status.ARGUMENT), (Row(Event.MORE), Status.NO_TASK),
            ]:
                with self.subTest(row=row):
                    self.assertIs(self.refused(lambda: monitor.observe(row)).status, status)
                    self.assertIs(self.refused(lambda: monitor.would_fit(row)).status, status)
            self.assertEqual(monitor.look().rows, 0)

    def test_a_refused_row_is_named(self) -> None:
        """The number of a row is that of all rows so far, however they were given."""
        held, words = Row(Event.HELD, "ctl", 1), "row 5003: HELD is no event of a trace"
        rows = [*[Row(Event.IDLE)] * 5000, Row(Event.KEPT, "ctl", 1), Row(Event.MORE, "ctl", 1), held, Row(Event.MORE)]
        for given in (rows, Trace.of(rows)):
            with Monitor(CONTROL) as monitor:
                self.assertEqual(str(self.refused(lambda: monitor.observe_all(given))), words)
                self.assertEqual(str(self.refused(lambda: monitor.observe(held))), words)
                self.assertEqual(str(self.refused(lambda: monitor.would_fit(held))), words)
                for row, times, more in [
                    (Row(Event.MORE), 1, "MORE needs a task"), (Row(Event.OVER, "ctl", 1), 2, "OVER comes once, and not 2 times"),
                    (Row(Event.IDLE), 0, "times is 0"),
                ]:
                    for call in (monitor.observe, monitor.would_fit):
                        self.assertEqual(str(self.refused(lambda: call(row, times))), f"row 5003: {more}")
                self.assertEqual(monitor.observe(Row(Event.DONE, "log", 1)), Unfit(Why.NOT_PENDING, 5003))
                self.assertEqual(str(self.refused(lambda: monitor.observe(held))), f"a row after the first unfit one:{words[9:]}")

    def test_a_refused_row_while_another_thread_has_the_monitor(self) -> None:
        """The number of the row is not known then, and what is wrong with it still is."""
        held = Row(Event.HELD, "ctl", 1)
        with Monitor(CONTROL) as monitor, mock.patch.object(Monitor, "look", side_effect=Refused(Status.BUSY)):
            calls: List[Callable[[], object]] = [
                lambda: monitor.observe(held), lambda: monitor.would_fit(held), lambda: monitor.observe_all([held]),
            ]
            for call in calls:
                refused = self.refused(call)
                self.assertEqual((refused.status, str(refused)), (Status.ARGUMENT, "HELD is no event of a trace"))


if __name__ == "__main__":
    unittest.main()
