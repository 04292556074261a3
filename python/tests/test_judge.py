"""Verdicts on rows, each worked out by hand from the rules, for each rule that a row can break."""

import unittest
from fractions import Fraction
from typing import Any, Callable, List, Tuple

from edfvd import Event, Monitor, Row, Status, Task, Trace, Verdict, Why, judge
from edfvd._library import CRow
from support import CONTROL, CTL, LOG, TOO_MUCH, TWICE, Case

KINDS = {event.name.lower(): event for event in Event}


def trace(text: str) -> List[Row]:
    """Rows from words such as ``kept:ctl:1 more:ctl:1*3 idle``."""
    rows: List[Row] = []
    for word in text.split():
        one, _, times = word.partition("*")
        kind, *job = one.split(":")
        rows += [Row(KINDS[kind], job[0], int(job[1])) if job else Row(KINDS[kind])] * int(times or 1)
    return rows


class Judge(Case):
    def test_first_row_that_does_not_fit(self) -> None:
        for text, place, why in [
            ("kept:log:1 done:log:1 kept:log:2", 3, Why.TOO_SOON),
            ("kept:ctl:2", 1, Why.WRONG_COUNT),
            ("dropped:ctl:1", 1, Why.WRONG_KEPT),
            ("more:ctl:1", 1, Why.NOT_PENDING),
            ("kept:ctl:1 kept:log:1 more:log:1", 3, Why.NOT_LEAST),
            ("kept:ctl:1 more:ctl:1 more:ctl:1", 3, Why.WRONG_HOW),
            ("kept:ctl:1 idle", 2, Why.IDLE_PENDING),
            ("kept:ctl:1 kept:log:1 more:ctl:1 over:ctl:1 more:log:1", 5, Why.NOT_PENDING),
            ("kept:ctl:1 more:ctl:1 over:ctl:1 done:ctl:1 idle dropped:log:1", 6, Why.WRONG_KEPT),
            ("kept:log:1 more:log:1*4 over:log:1", 6, Why.WRONG_HOW),
            ("kept:ctl:1 more:ctl:1 over:ctl:1 kept:log:1", 4, Why.WRONG_KEPT),
            ("kept:log:1 done:log:1 more:log:1", 3, Why.NOT_PENDING),
        ]:
            with self.subTest(text=text):
                self.assertEqual(judge(CONTROL, trace(text)), Verdict(why, place, 0, None))
                self.assertFalse(judge(CONTROL, trace(text)).legal)

    def test_legal(self) -> None:
        verdict = judge(CONTROL, trace("kept:ctl:1 done:ctl:1 idle"))
        self.assertEqual(verdict, Verdict(None, None, 0, None))
        self.assertTrue(verdict.legal)
        self.assertEqual(judge(CONTROL, []), Verdict(None, None, 0, None))

    def test_late(self) -> None:
        """Job b:1 is pending at its deadline, tick 4, and job a:2 at tick 8."""
        first = trace("kept:a:1 kept:b:1 more:a:1*3 done:a:1")
        self.assertEqual(judge(TWICE, first, Fraction(1)), Verdict(None, None, 1, ("b", 1)))
        second = [*first, *trace("kept:a:2 more:b:1*3 done:b:1")]
        self.assertEqual(judge(TWICE, second, Fraction(1)), Verdict(None, None, 2, ("b", 1)))

    def test_late_job_that_is_not_the_first_of_its_task(self) -> None:
        """Job a:1 is done at 4. Then b:1 has the ticks up to 8, the deadline of a:2."""
        rows = trace("kept:a:1 more:a:1*3 done:a:1 kept:a:2 kept:b:1 more:b:1*3 done:b:1")
        self.assertEqual(judge(TWICE, rows, Fraction(1)), Verdict(None, None, 1, ("a", 2)))

    def test_rows_and_tasks_in_any_iterable(self) -> None:
        rows = trace("kept:ctl:1 idle")
        for given in (rows, tuple(rows), iter(rows), (row for row in rows)):
            self.assertEqual(judge(iter(CONTROL), given), Verdict(Why.IDLE_PENDING, 2, 0, None))

    def test_scale_of_the_caller(self) -> None:
        """At tick 3, ctl has the virtual deadline 3 + 10x and log, which was released at 0, the deadline 10."""
        text = "kept:log:1 more:log:1*3 kept:ctl:1"
        for scale, least, other in [
            (None, "ctl", "log"), (Fraction(2, 5), "ctl", "log"), (Fraction(69, 100), "ctl", "log"),
            (Fraction(71, 100), "log", "ctl"), (Fraction(1), "log", "ctl"),
        ]:
            with self.subTest(scale=scale):
                self.assertTrue(judge(CONTROL, trace(f"{text} more:{least}:1"), scale).legal)
                verdict = judge(CONTROL, trace(f"{text} more:{other}:1"), scale)
                self.assertEqual(verdict, Verdict(Why.NOT_LEAST, 6, 0, None))

    def test_refused(self) -> None:
        one = [Task("log", "low", 10, 0)]
        wide = [Task("a", "low", 2**31, 1), Task("b", "low", 3**20, 1)]
        cases: List[Tuple[Any, ...]] = [
            (CONTROL, [Row(Event.GIVEN, "ctl", 1)], None, Status.ARGUMENT, None),
            (CONTROL, [Row(Event.HELD, "ctl", 1)], None, Status.ARGUMENT, None),
            (CONTROL, [Row(Event.IDLE, "ctl", 1)], None, Status.ARGUMENT, None),
            (CONTROL, [Row(Event.KEPT)], None, Status.NO_TASK, None),
            (CONTROL, [], Fraction(1, 2**60 + 1), Status.ARGUMENT, None),
            (TOO_MUCH, [], None, Status.NOT_ADMITTED, None),
            ([CTL, *one], [], None, Status.ZERO_NUMBER, "log"),
            (wide, [], None, Status.PERIODS, "b"),
        ]
        for tasks, rows, scale, status, task in cases:
            with self.subTest(tasks=tasks, rows=rows, scale=scale):
                refused = self.refused(lambda: judge(tasks, rows, scale))
                self.assertEqual((refused.status, refused.task), (status, task))
        for tasks in (TOO_MUCH, wide):
            self.assertTrue(judge(tasks, [], Fraction(1)).legal)

    def test_a_refused_row_is_named(self) -> None:
        """The message has the row's number, from 1, and what is wrong with it, for rows and for arrays of them."""
        good, words = trace("kept:ctl:1 more:ctl:1 over:ctl:1 done:ctl:1 idle"), []
        wrong = [
            Row(Event.HELD, "ctl", 1), Row(Event.GIVEN, "log", 1), Row(Event.IDLE, "ctl"), Row(Event.IDLE, None, 2), Row(Event.KEPT),
            Row(Event.OVER, None, 1),
        ]
        for row in wrong:
            refused = self.refused(lambda: judge(CONTROL, [*good, row, row]))
            self.assertEqual((refused.task, refused.at), (None, 0))
            words.append((refused.status, str(refused)))
        self.assertEqual(words, [
            (Status.ARGUMENT, "row 6: HELD is no event of a trace"), (Status.ARGUMENT, "row 6: GIVEN is no event of a trace"),
            (Status.ARGUMENT, "row 6: an idle row has no task"), (Status.ARGUMENT, "row 6: an idle row has no count"),
            (Status.NO_TASK, "row 6: KEPT needs a task"), (Status.NO_TASK, "row 6: OVER needs a task"),
        ])
        refused = self.refused(lambda: judge(CONTROL, Trace.of([*[Row(Event.IDLE)] * 9, wrong[0]])))
        self.assertEqual(str(refused), "row 10: HELD is no event of a trace")
        for number, text in [(12, "12 is no event"), (1, "3 is not the number of a task, which is from 1 to 2")]:
            rows = (CRow * 2)(CRow(9, 0, 0), CRow(number, 3, 1))
            self.assertEqual(str(self.refused(lambda: judge(CONTROL, rows))), f"row 2: {text}")
        # The kinds of all rows are looked at before the tasks.
        refused = self.refused(lambda: judge(CONTROL, [Row(Event.IDLE), Row(Event.KEPT), Row(Event.HELD)]))
        self.assertEqual((refused.status, str(refused)), (Status.ARGUMENT, "row 3: HELD is no event of a trace"))
        self.assertEqual(str(self.refused(lambda: judge(CONTROL, [], Fraction(1, 2**60 + 1)))), "a number out of range")

    def test_a_scale_helps(self) -> None:
        """The message for a set without a rule says that its rows can be judged under a scale, which is true."""
        wide = [Task("a", "low", 2**31, 1), Task("b", "low", 3**20, 1)]
        more = "; with a scale of your own, such as scale=Fraction(1), rows are judged all the same"
        calls: List[Callable[..., object]] = [judge, lambda tasks, rows: Monitor(tasks)]
        periods = "task b: periods out of range: with the period of this task the least common multiple of the periods is above 2^60" \
            " (edfvd.laboratory.periods draws periods for which it is not)"
        for tasks, begin in [(TOO_MUCH, "not admitted"), (wide, periods)]:
            for call in calls:
                self.assertEqual(str(self.refused(lambda: call(tasks, []))), begin + more)
            with Monitor(tasks, Fraction(1)) as monitor:
                self.assertTrue(judge(tasks, [], Fraction(1)).legal and monitor.verdict().legal)

    def test_ties_and_fractions(self) -> None:
        """With the scale 2/5, ctl has the virtual deadline 4 for a period of 10, as late as log, and 4.4 for one of 11."""
        for period, why in [(10, None), (11, Why.NOT_LEAST)]:
            tasks = [Task("ctl", "high", period, 2, 6), Task("log", "low", 4, 1)]
            for kept in ("kept:ctl:1 kept:log:1", "kept:log:1 kept:ctl:1"):
                self.assertIs(judge(tasks, trace(f"{kept} more:ctl:1"), Fraction(2, 5)).why, why)
                self.assertTrue(judge(tasks, trace(f"{kept} done:log:1"), Fraction(2, 5)).legal)

    def test_plain_has_no_modes(self) -> None:
        """Loads 1/2 and 2/5 are at most 1 together: a third tick of ctl is neither an overrun nor does it drop log."""
        light = [Task("ctl", "high", 10, 2, 4), LOG]
        begin = "kept:ctl:1 more:ctl:1"
        self.assertTrue(judge(light, trace(f"{begin} more:ctl:1 kept:log:1 more:ctl:1 stop:ctl:1 more:log:1")).legal)
        self.assertEqual(judge(light, trace(f"{begin} over:ctl:1")), Verdict(Why.WRONG_HOW, 3, 0, None))
        self.assertEqual(judge(light, trace(f"{begin} more:ctl:1 dropped:log:1")), Verdict(Why.WRONG_KEPT, 4, 0, None))

    def test_too_many_rows(self) -> None:
        rows = [Row(Event.IDLE)] * 2_000_001
        refused = self.refused(lambda: judge([LOG], rows))
        self.assertIs(refused.status, Status.FULL)
        words = "too many rows or releases: judge takes at most 2,000,000 rows, and a Monitor takes any number"
        self.assertEqual(str(refused), words)
        self.assertEqual(str(self.refused(lambda: judge([LOG], Trace([(Row(Event.IDLE), 2_000_001)])))), words)
        self.assertTrue(judge([LOG], Trace([(Row(Event.IDLE), 2_000_000)])).legal)

    def test_plain_edf_of_a_set_with_a_scale(self) -> None:
        """The job of ctl has its deadline at 10, and the first one of log at 11. So ctl has its 6 ticks first; under EDF-VD its second
        one is an overrun. After 10 ticks ctl has a second job, whose deadline is 20, and log ends before it."""
        rows = trace(
            "kept:ctl:1 more:ctl:1 kept:log:1 more:ctl:1*4 done:ctl:1 more:log:1*4 kept:ctl:2 done:log:1 more:ctl:2 done:ctl:2 idle"
        )
        plain = [Task("ctl", "low", 10, 6), Task("log", "low", 10, 5)]
        self.assertEqual(judge(plain, rows, Fraction(1)), Verdict(None, None, 0, None))
        self.assertEqual(judge(CONTROL, rows), Verdict(Why.WRONG_HOW, 4, 0, None))


if __name__ == "__main__":
    unittest.main()
