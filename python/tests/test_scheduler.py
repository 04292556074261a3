"""A scheduler's answers, refusals, looks and rows, by hand and beside the judge."""

import threading
import unittest
from fractions import Fraction
from typing import Any, List, Tuple

from edfvd import Answer, Event, Look, Refused, Row, Scheduler, Status, Task, judge, scales
from support import CONTROL, CTL, LOG, TOO_MUCH, Case


def run_ticks(scheduler: Scheduler, ticks: int) -> None:
    """Runs ticks with each task released as soon as it may be, and each job running to its own budget."""
    for _ in range(ticks):
        for task in CONTROL:
            try:
                scheduler.release(task.name)
            except Refused as refused:
                assert refused.status is Status.TOO_SOON
        chosen = scheduler.look().chosen
        if chosen is None:
            scheduler.idle()
        else:
            given = scheduler.grant(chosen[0])
            scheduler.outcome(chosen[0], given.count, done=False)


class Events(Case):
    def test_each_answer(self) -> None:
        """A job of ctl that overruns while log has one pending, which is discarded, and one that is dropped later."""
        with Scheduler([CTL, LOG], places=100) as scheduler:
            self.assertEqual(scheduler.look(), Look(0, 0, False, None, None))
            self.assertEqual(scheduler.release("log"), Answer(Event.KEPT, "log", 1, 0, 0))
            self.assertEqual(scheduler.release("ctl"), Answer(Event.KEPT, "ctl", 1, 0, 0))
            # The virtual deadline of ctl is 4, the deadline of log 10; no tick is in progress.
            self.assertEqual(scheduler.look(), Look(0, 2, False, None, ("ctl", 1)))
            self.assertEqual(scheduler.grant("ctl"), Answer(Event.GIVEN, "ctl", 1, 0, 0))
            self.assertEqual(scheduler.look(), Look(0, 2, False, ("ctl", 1), ("ctl", 1)))
            self.assertEqual(scheduler.outcome("ctl", 1, done=False).event, Event.MORE)
            self.assertEqual(scheduler.grant("ctl"), Answer(Event.GIVEN, "ctl", 1, 1, 1))
            over = scheduler.outcome("ctl", 1, done=False)
            self.assertEqual((over.event, over.task, over.count), (Event.OVER, "ctl", 1))
            self.assertEqual(scheduler.look(), Look(2, 4, True, None, ("ctl", 1)))
            for before in (2, 3, 4):
                self.assertEqual(scheduler.grant("ctl"), Answer(Event.GIVEN, "ctl", 1, before, before))
                self.assertEqual(scheduler.outcome("ctl", 1, done=False).event, Event.MORE)
            scheduler.grant("ctl")
            self.assertEqual(scheduler.outcome("ctl", 1, done=False).event, Event.STOP)
            self.assertEqual(scheduler.look(), Look(6, 8, True, None, None))
            self.assertEqual(scheduler.idle(), Answer(Event.IDLE, None, 0, 0, 6))
            self.assertEqual(scheduler.look(), Look(7, 9, False, None, None))
            for _ in range(3):
                scheduler.idle()
            self.assertEqual(scheduler.release("log"), Answer(Event.KEPT, "log", 2, 0, 10))
            self.assertEqual(scheduler.look(), Look(10, 13, False, None, ("log", 2)))

    def test_held_and_dropped(self) -> None:
        with Scheduler(CONTROL, places=100) as scheduler:
            scheduler.release("ctl")
            scheduler.grant("ctl")
            scheduler.outcome("ctl", 1, done=False)
            scheduler.grant("ctl")
            held = scheduler.release("log")
            self.assertEqual((held.event, held.task, held.count, held.before), (Event.HELD, "log", 1, 0))
            self.assertEqual(scheduler.look().rows, 2)
            scheduler.outcome("ctl", 1, done=False)
            self.assertEqual(list(scheduler.rows(2)), [Row(Event.OVER, "ctl", 1), Row(Event.DROPPED, "log", 1)])
        with Scheduler(CONTROL, places=100) as scheduler:
            scheduler.release("ctl")
            for _ in range(2):
                scheduler.grant("ctl")
                scheduler.outcome("ctl", 1, done=False)
            self.assertEqual(scheduler.release("log"), Answer(Event.DROPPED, "log", 1, 0, 2))

    def test_each_row(self) -> None:
        with Scheduler(CONTROL, places=100) as scheduler:
            scheduler.idle()
            scheduler.release("log")
            scheduler.grant("log")
            scheduler.outcome("log", 1, done=False)
            scheduler.grant("log")
            scheduler.outcome("log", 1, done=True)
            rows = [Row(Event.IDLE), Row(Event.KEPT, "log", 1), Row(Event.MORE, "log", 1), Row(Event.DONE, "log", 1)]
            self.assertEqual(list(scheduler.rows()), rows)
            for since in range(6):
                self.assertEqual(list(scheduler.rows(since)), rows[since:], since)

    def test_rows_are_those_of_the_call(self) -> None:
        """Rows that come later are not among them, and a wrong number is refused before any row is read."""
        with Scheduler(CONTROL, places=100) as scheduler:
            scheduler.idle()
            rows = scheduler.rows()
            scheduler.idle()
            self.assertEqual(list(rows), [Row(Event.IDLE)])
            with self.assertRaises(TypeError):
                scheduler.rows("0")  # type: ignore[arg-type]


class Refusals(Case):
    def test_too_soon_names_the_tick(self) -> None:
        """log may release again 10 ticks after its release at tick 3."""
        with Scheduler(CONTROL, places=100) as scheduler:
            for _ in range(3):
                scheduler.idle()
            scheduler.release("log")
            refused = self.refused(lambda: scheduler.release("log"))
            self.assertEqual((refused.status, refused.at), (Status.TOO_SOON, 13))
            self.assertEqual(str(refused).split(": ")[-1], "too soon")

    def test_each_status(self) -> None:
        with Scheduler(CONTROL, places=5) as scheduler:
            none = self.refused(lambda: scheduler.grant("ctl"))
            self.assertEqual((none.status, none.task), (Status.NOT_CHOSEN, None))
            scheduler.release("ctl")
            scheduler.release("log")
            for call, status, task in [
                (lambda: scheduler.grant("log"), Status.NOT_CHOSEN, "ctl"),
                (lambda: scheduler.idle(), Status.PENDING, "ctl"),
                (lambda: scheduler.outcome("ctl", 1, done=True), Status.NOT_OUT, None),
            ]:
                refused = self.refused(call)
                self.assertEqual((refused.status, refused.task), (status, task))
            scheduler.grant("ctl")
            for call, status, task in [
                (lambda: scheduler.release("ctl"), Status.RUNNING, "ctl"),
                (lambda: scheduler.grant("log"), Status.TICK_OUT, "ctl"),
                (lambda: scheduler.idle(), Status.TICK_OUT, "ctl"),
                (lambda: scheduler.outcome("log", 1, done=True), Status.NOT_OUT, "ctl"),
                (lambda: scheduler.outcome("ctl", 2, done=True), Status.NOT_OUT, "ctl"),
            ]:
                refused = self.refused(call)
                self.assertEqual((refused.status, refused.task), (status, task))
            scheduler.outcome("ctl", 1, done=True)
            for _ in range(2):
                scheduler.grant("log")
                scheduler.outcome("log", 1, done=False)
            self.assertIs(self.refused(lambda: scheduler.grant("log")).status, Status.FULL)

    def test_opening(self) -> None:
        cases: List[Tuple[Any, ...]] = [
            ([], Status.EMPTY, None),
            ([CTL, Task("log", "low", 0, 5)], Status.ZERO_NUMBER, "log"),
            (TOO_MUCH, Status.NOT_ADMITTED, None),
        ]
        for tasks, status, task in cases:
            with self.subTest(tasks=tasks):
                for opened in (lambda: Scheduler(tasks, 10), lambda: Scheduler.endless(tasks)):
                    refused = self.refused(opened)
                    self.assertEqual((refused.status, refused.task), (status, task))

    def test_opening_without_a_rule(self) -> None:
        """No scale holds for a set that is not admitted; for an admitted one a scale may not hold."""
        none = "not admitted; no scale holds for the set, so only judge and Monitor take it, with any scale"
        other = "not admitted under this scale; edfvd.scales says which scales hold for the set, if any"
        for opened, words in [
            (lambda: Scheduler(TOO_MUCH, 10), none), (lambda: Scheduler.endless(TOO_MUCH), none),
            (lambda: Scheduler.scaled(TOO_MUCH, None), none), (lambda: Scheduler.scaled(TOO_MUCH, Fraction(1)), other),
            (lambda: Scheduler.scaled(CONTROL, Fraction(1, 10)), other),
        ]:
            self.assertEqual(str(self.refused(opened)), words)
        self.assertIsNone(scales(TOO_MUCH))
        self.assertTrue(judge(TOO_MUCH, [], Fraction(1)).legal)


class Schedules(Case):
    def test_beside_the_judge(self) -> None:
        with Scheduler(CONTROL, places=1000) as scheduler:
            run_ticks(scheduler, 200)
            look = scheduler.look()
            rows = list(scheduler.rows())
        self.assertEqual((look.ticks, look.rows), (200, len(rows)))
        self.assertEqual(judge(CONTROL, rows).late, 0)
        # Each period has an overrun, a job of log that it discards, six ticks of ctl and four idle ones.
        self.assertEqual(rows.count(Row(Event.OVER, "ctl", 1)), 1)
        self.assertEqual(sum(row.event is Event.OVER for row in rows), 20)
        self.assertEqual(sum(row.event is Event.IDLE for row in rows), 80)

    def test_endless(self) -> None:
        """A scheduler without an end has the rows of a plain one, of which it keeps the latest 256 runs of equal rows."""
        seen: List[Row] = []
        with Scheduler(CONTROL, places=10_000) as plain, Scheduler.endless(CONTROL) as endless:
            for _ in range(500):
                run_ticks(plain, 1)
                run_ticks(endless, 1)
                seen += endless.rows(len(seen))
            self.assertEqual(seen, list(plain.rows()))
            self.assertEqual(endless.look(), plain.look())
            kept = [place for place, row in enumerate(seen) if place == 0 or row != seen[place - 1]][-256]
            self.assertEqual(list(endless.rows(kept)), seen[kept:])
            self.assertEqual(list(endless.rows(len(seen))), [])
            self.assertIs(self.refused(lambda: next(endless.rows(kept - 1))).status, Status.GONE)

    def test_threads(self) -> None:
        """Threads that share one scheduler are refused, and never let in together."""
        scheduler = Scheduler(CONTROL, places=80_000)
        refusals: List[Status] = []

        def drive() -> None:
            for _ in range(20_000):
                try:
                    scheduler.idle()
                except Refused as refused:
                    refusals.append(refused.status)

        threads = [threading.Thread(target=drive) for _ in range(4)]
        for thread in threads:
            thread.start()
        for thread in threads:
            thread.join()
        self.assertLessEqual(set(refusals), {Status.BUSY})
        self.assertEqual(scheduler.look().ticks + len(refusals), 80_000)


if __name__ == "__main__":
    unittest.main()
