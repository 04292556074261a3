"""Runs of several ticks, what is read of a task, and schedulers under a scale: by hand, and beside the ticks one by one."""

import os
import random
import subprocess
import sys
import unittest
from fractions import Fraction
from pathlib import Path
from typing import Callable, List, Optional

import edfvd
from edfvd import Answer, Event, Next, PendingJob, Row, Scheduler, Status, Task, Trace
from support import CONTROL, TOO_MUCH, Case

PLAIN = [Task("hi", "high", 4, 1, 2), Task("lo", "low", 4, 2)]
EXAMPLES = Path(__file__).resolve().parents[1] / "examples"


class ByHand(Case):
    def test_a_schedule_with_an_overrun(self) -> None:
        """The scale is 2/5: the key of ctl is 4 ticks after its release in low mode, and 10 in high mode, as that of log."""
        with Scheduler(CONTROL, places=20) as scheduler:
            self.assertIsNone(scheduler.next())
            self.assertIsNone(scheduler.pending("ctl"))
            self.assertEqual(scheduler.earliest("ctl"), 0)
            scheduler.release("ctl")
            scheduler.release("log")
            self.assertEqual(scheduler.next(), Next("ctl", 1, 2))
            self.assertEqual(scheduler.pending("ctl"), PendingJob("ctl", 1, 0, 0, 10, Fraction(4)))
            self.assertEqual(scheduler.pending("log"), PendingJob("log", 1, 0, 0, 10, Fraction(10)))
            self.assertIs(scheduler.look().high_mode, False)
            self.assertEqual(scheduler.run("ctl", 1, 2, done=False), Answer(Event.OVER, "ctl", 1, 0, 0))
            self.assertIs(scheduler.look().high_mode, True)
            self.assertEqual(scheduler.next(), Next("ctl", 1, 4))
            self.assertEqual(scheduler.pending("ctl"), PendingJob("ctl", 1, 2, 0, 10, Fraction(10)))
            self.assertIsNone(scheduler.pending("log"))
            self.assertEqual(scheduler.discarded("log"), ("log", 1))
            self.assertIsNone(scheduler.discarded("ctl"))
            self.assertEqual(scheduler.run("ctl", 1, 3, done=False).event, Event.MORE)
            self.assertEqual(scheduler.run("ctl", 1, 1, done=True).event, Event.DONE)
            self.assertEqual(scheduler.idle_for(4), Answer(Event.IDLE, None, 0, 0, 6))
            self.assertEqual(scheduler.earliest("log"), 10)
            scheduler.release("log")
            self.assertEqual(scheduler.pending("log"), PendingJob("log", 2, 0, 10, 20, Fraction(20)))
            self.assertEqual(scheduler.earliest("log"), 20)
            self.assertEqual(scheduler.run("log", 2, 5, done=False).event, Event.STOP)
            more, idle = Row(Event.MORE, "ctl", 1), Row(Event.IDLE)
            self.assertEqual(
                list(scheduler.rows()),
                [Row(Event.KEPT, "ctl", 1), Row(Event.KEPT, "log", 1), more, Row(Event.OVER, "ctl", 1), more, more, more,
                 Row(Event.DONE, "ctl", 1), idle, idle, idle, idle, Row(Event.KEPT, "log", 2)]
                + 4 * [Row(Event.MORE, "log", 2)] + [Row(Event.STOP, "log", 2)],
            )

    def test_refusals(self) -> None:
        with Scheduler(CONTROL, places=4) as scheduler:
            scheduler.release("ctl")
            past = self.refused(lambda: scheduler.run("ctl", 1, 3, done=True))
            self.assertEqual((past.status, past.at), (Status.PAST, 2))
            other = self.refused(lambda: scheduler.run("log", 1, 1, done=True))
            self.assertEqual((other.status, other.task), (Status.NOT_CHOSEN, "ctl"))
            pending = self.refused(lambda: scheduler.idle_for(1))
            self.assertEqual((pending.status, pending.task), (Status.PENDING, "ctl"))
            for call in (lambda: scheduler.run("ctl", 1, 0, done=True), lambda: scheduler.idle_for(0)):
                self.assertIs(self.refused(call).status, Status.ARGUMENT)
            self.assertEqual((scheduler.look().ticks, scheduler.look().rows), (0, 1))
            scheduler.run("ctl", 1, 1, done=True)
            self.assertIs(self.refused(lambda: scheduler.idle_for(3)).status, Status.FULL)
            scheduler.idle_for(2)
            self.assertIs(self.refused(lambda: scheduler.idle_for(1)).status, Status.FULL)

    def test_wrong_values(self) -> None:
        with Scheduler(CONTROL, places=4) as scheduler:
            calls: List[Callable[[], object]] = [
                lambda: scheduler.run("net", 1, 1, done=True), lambda: scheduler.pending("net"),
                lambda: scheduler.earliest("net"), lambda: scheduler.discarded("net"),
            ]
            for call in calls:
                with self.assertRaises(ValueError):
                    call()
            scheduler.release("ctl")
            for wrong, kind in [("1", TypeError), (True, TypeError), (-1, ValueError), (2**32 + 1, ValueError), (2**64 + 1, ValueError)]:
                with self.subTest(wrong=wrong):
                    self.assertRaises(kind, scheduler.run, "ctl", wrong, 1, done=True)
                    self.assertRaises(kind, scheduler.run, "ctl", 1, wrong, done=True)
                    if wrong != 2**32 + 1:
                        self.assertRaises(kind, scheduler.idle_for, wrong)
            with self.assertRaises(TypeError):
                scheduler.run("ctl", 1, 1, done=1)  # type: ignore[arg-type]
            self.assertEqual((scheduler.look().ticks, scheduler.look().rows), (0, 1))

    def test_places(self) -> None:
        """Two releases use two places, so a run of one tick is refused; no place is left for a first release of none."""
        opened: List[Callable[[Optional[int]], Scheduler]] = [
            lambda places: Scheduler(CONTROL, places), lambda places: Scheduler.scaled(CONTROL, Fraction(1, 2), places),
            lambda places: Scheduler.scaled(CONTROL, None, places),
        ]
        for make in opened:
            with make(0) as scheduler:
                self.assertIs(self.refused(lambda: scheduler.release("ctl")).status, Status.FULL)
            for places in (2, 3, None):
                with make(places) as scheduler:
                    scheduler.release("ctl")
                    scheduler.release("log")
                    if places == 2:
                        self.assertIs(self.refused(lambda: scheduler.run("ctl", 1, 1, done=True)).status, Status.FULL)
                    else:
                        self.assertIs(scheduler.run("ctl", 1, 1, done=True).event, Event.DONE)
            for wrong, kind in [("2", TypeError), (-1, ValueError), (2**32, ValueError)]:
                with self.subTest(places=wrong):
                    self.assertRaises(kind, make, wrong)

    def test_closed(self) -> None:
        scheduler = Scheduler(CONTROL, places=4)
        scheduler.release("ctl")
        scheduler.close()
        calls: List[Callable[[], object]] = [
            scheduler.next, scheduler.scale, lambda: scheduler.pending("ctl"), lambda: scheduler.earliest("ctl"),
            lambda: scheduler.discarded("ctl"), lambda: scheduler.run("ctl", 1, 1, done=True), lambda: scheduler.idle_for(1),
            scheduler.runs, scheduler.row_array, scheduler.restart,
        ]
        for place, call in enumerate(calls):
            with self.subTest(place=place):
                self.assertIs(self.refused(call).status, Status.CLOSED)

    def test_restart(self) -> None:
        """ctl, released at 0, may be released again at 10, which is 3 ticks after a restart at 7; log may be released at once."""
        with Scheduler.endless(CONTROL) as scheduler:
            scheduler.release("ctl")
            pending = self.refused(scheduler.restart)
            self.assertEqual((pending.status, pending.task), (Status.PENDING, "ctl"))
            scheduler.grant("ctl")
            granted = self.refused(scheduler.restart)
            self.assertEqual((granted.status, granted.task), (Status.TICK_OUT, "ctl"))
            scheduler.outcome("ctl", 1, done=True)
            scheduler.idle_for(6)
            self.assertEqual((scheduler.look().ticks, scheduler.look().rows), (7, 8))
            scheduler.restart()
            self.assertEqual((scheduler.look().ticks, scheduler.look().rows), (0, 0))
            self.assertEqual((scheduler.earliest("ctl"), scheduler.earliest("log")), (3, 0))
            soon = self.refused(lambda: scheduler.release("ctl"))
            self.assertEqual((soon.status, soon.at), (Status.TOO_SOON, 3))
            self.assertEqual(scheduler.release("log").count, 1)
            scheduler.run("log", 1, 5, done=True)
            self.assertEqual(scheduler.release("ctl").count, 1)
            self.assertEqual(list(scheduler.runs()), [
                (Row(Event.KEPT, "log", 1), 1), (Row(Event.MORE, "log", 1), 4), (Row(Event.DONE, "log", 1), 1), (Row(Event.KEPT, "ctl", 1), 1),
            ])
        self.assertIs(self.refused(scheduler.restart).status, Status.CLOSED)

    def test_rows_as_runs(self) -> None:
        idle = Row(Event.IDLE)
        for places in (None, 50):
            with Scheduler(CONTROL, places) as scheduler:
                self.assertEqual(list(scheduler.runs()), [])
                scheduler.idle_for(20)
                scheduler.release("log")
                scheduler.run("log", 1, 4, done=False)
                more = Row(Event.MORE, "log", 1)
                self.assertEqual(list(scheduler.runs()), [(idle, 20), (Row(Event.KEPT, "log", 1), 1), (more, 4)])
                self.assertEqual(list(scheduler.runs(since=23)), [(more, 2)])
                self.assertEqual((list(scheduler.runs(since=25)), list(scheduler.runs(since=2**64 - 1))), ([], []))
                before = scheduler.runs()
                scheduler.run("log", 1, 1, done=True)
                scheduler.idle_for(3)
                self.assertEqual(list(before)[-1], (more, 4))
                self.assertEqual(Trace(scheduler.runs()), Trace.of(scheduler.rows()))
                self.assertEqual(len(list(scheduler.rows())), 29)
                with self.assertRaises(ValueError):
                    scheduler.runs(since=-1)
        with Scheduler.endless(CONTROL) as scheduler:
            scheduler.idle_for(2**33)
            self.assertEqual(list(scheduler.runs()), [(idle, 2**32 - 1), (idle, 2**32 - 1), (idle, 2)])
            for _ in range(150):
                scheduler.release("ctl")
                scheduler.run("ctl", scheduler.look().chosen[1], 1, done=True)  # type: ignore[index]
                scheduler.idle_for(9)
            self.assertIs(self.refused(lambda: next(scheduler.runs())).status, Status.GONE)
            # Eleven rows of each job are three runs, of which the latest 256 are kept.
            self.assertEqual(sum(times for _, times in scheduler.runs(scheduler.look().rows - 85 * 11)), 85 * 11)

    def test_large_numbers(self) -> None:
        """Ticks of more than 32 bits, and a key that counts parts of 2^60 of a tick, and so has more than 64 bits."""
        half, late = Fraction(2**59 + 1, 2**60), 2**40
        with Scheduler.scaled(CONTROL, half) as scheduler:
            self.assertEqual(scheduler.idle_for(late).event, Event.IDLE)
            scheduler.release("ctl")
            self.assertEqual(scheduler.pending("ctl"), PendingJob("ctl", 1, 0, late, late + 10, late + 10 * half))
            self.assertEqual(scheduler.earliest("ctl"), late + 10)
            self.assertEqual(scheduler.earliest("log"), 0)
            self.assertEqual(scheduler.look().rows, late + 1)

    def test_scales(self) -> None:
        """A scale holds for the control set from 2/5 to 4/5."""
        for scale, places in ((Fraction(1, 2), None), (Fraction(4, 5), 9), (Fraction(2, 5), None)):
            with Scheduler.scaled(CONTROL, scale, places) as scheduler:
                self.assertEqual(scheduler.scale(), scale)
        with Scheduler.scaled(CONTROL, None) as scheduler:
            self.assertEqual(scheduler.scale(), Fraction(2, 5))
        with Scheduler.scaled(PLAIN, None) as scheduler:
            self.assertIsNone(scheduler.scale())
            scheduler.release("lo")
            self.assertEqual(scheduler.pending("lo"), PendingJob("lo", 1, 0, 0, 4, Fraction(4)))
        for tasks, scale in ((CONTROL, Fraction(81, 100)), (CONTROL, Fraction(1)), (TOO_MUCH, Fraction(1, 2))):
            self.assertIs(self.refused(lambda: Scheduler.scaled(tasks, scale)).status, Status.NOT_ADMITTED)
        self.assertIs(self.refused(lambda: Scheduler.scaled(CONTROL, Fraction(1, 2**60 + 1))).status, Status.ARGUMENT)


def read(scheduler: Scheduler, tasks: List[Task]) -> List[object]:
    """What can be read of a scheduler and its tasks."""
    of_tasks = [(scheduler.pending(t.name), scheduler.earliest(t.name), scheduler.discarded(t.name)) for t in tasks]
    return [scheduler.look(), scheduler.next(), of_tasks, list(scheduler.rows())]


def one_by_one(scheduler: Scheduler, task: str, count: int, ticks: int, done: bool) -> Optional[Answer]:
    """A run, as a grant and an outcome for each of its ticks."""
    answer = None
    for tick in range(1, ticks + 1):
        scheduler.grant(task)
        answer = scheduler.outcome(task, count, done=done and tick == ticks)
    return answer


class BesideTicks(Case):
    def test_random_schedules(self) -> None:
        """Random schedules by runs and by single ticks leave the same rows, answers and jobs; a run is never one tick too long."""
        rng = random.Random(5)
        for tasks in (CONTROL, PLAIN) * 25:
            with Scheduler(tasks, places=500) as runs, Scheduler(tasks, places=500) as ticks:
                for _ in range(30):
                    task = rng.choice(tasks).name
                    if runs.earliest(task) <= runs.look().ticks:
                        self.assertEqual(runs.release(task), ticks.release(task))
                    job, done = runs.next(), rng.random() < 0.4
                    if job is None:
                        idle = rng.randint(1, 6)
                        self.assertEqual(runs.idle_for(idle), [ticks.idle() for _ in range(idle)][0])
                    else:
                        task, count, most = job.task, job.count, job.ticks
                        past = self.refused(lambda: runs.run(task, count, most + 1, done=done))
                        self.assertEqual((past.status, past.at), (Status.PAST, most))
                        length = rng.randint(1, job.ticks)
                        ran = runs.run(job.task, job.count, length, done=done)
                        self.assertEqual(ran, one_by_one(ticks, job.task, job.count, length, done))
                        if length == job.ticks:
                            self.assertIn(ran.event, (Event.DONE, Event.STOP, Event.OVER))
                    self.assertEqual(read(runs, tasks), read(ticks, tasks))


class Year(unittest.TestCase):
    def ran(self, *words: str) -> "subprocess.CompletedProcess[str]":
        # The example imports the package that this test imports, whether that one is installed or not.
        env = {**os.environ, "PYTHONPATH": str(Path(edfvd.__file__).resolve().parents[1])}
        return subprocess.run([sys.executable, str(EXAMPLES / "year.py"), *words], capture_output=True, text=True, env=env)

    def test_a_week(self) -> None:
        """A week has 10,080 minutes. Its first and its 1,001st job of the valve overrun, the first one with a log pending. Each
        overrun lasts from 62 s to 202 s after its release, so two releases of the sensor are dropped. The processor is busy for
        10,076 times 1 s, 1,006 times 30 s, twice 200 s, and 167 times 90 s."""
        week = self.ran("7")
        self.assertEqual(
            week.stdout,
            "sensor: 10076 done, 4 dropped\nvalve: 1008 done, 2 overran\nlog: 1 discarded, 167 done\n"
            "604800000 ticks, 549114000 of them idle, 604811256 rows\n",
        )
        self.assertEqual((week.returncode, week.stderr), (0, ""))

    def test_wrong_words(self) -> None:
        for words in (["0"], ["x"], ["7", "8"], ["-1"], [""]):
            said = self.ran(*words)
            self.assertEqual((said.returncode, said.stdout), (2, ""), words)
            self.assertTrue(said.stderr.startswith("usage: year.py [DAYS]"), words)


if __name__ == "__main__":
    unittest.main()
