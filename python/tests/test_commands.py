"""The commands: what `ask` replies, and the rows of `run`, by hand."""

import ctypes
import unittest
from typing import Any, List, Tuple

from edfvd import Event, Job, Row, Status, Task, ask, judge, run
from edfvd._library import library, size, u32
from support import CONTROL, CTL, TOO_MUCH, Case
from test_judge import trace

FILE = b"task = [{name='a', level='low', period=4, low=2}]"


class Ask(Case):
    def test_replies(self) -> None:
        cases: List[Tuple[Any, ...]] = [
            (["check", "1"], FILE, b"", (0, b"tasks 1\nU_LL 1/2\nU_HL 0/1\nU_HH 0/1\nrule plain\n")),
            (["check", "2"], b"", FILE, (0, b"tasks 1\nU_LL 1/2\nU_HL 0/1\nU_HH 0/1\nrule plain\n")),
            (["check", "1"], b"task = [", b"", (3, b"task file: not TOML\n")),
            (["check", "3"], FILE, FILE, (3, b"task file: no tasks\n")),
            (["judge", "1", "2"], FILE, b"event,tick,task,job,how\nidle,0,,,\n", (0, b"legal late 0\n")),
            (["judge", "1", "2"], FILE, b"event,tick,task,job,how\n\0", (5, b"trace line 2: not five fields\n")),
            (["check", "1"], FILE + b"\0", b"", (3, b"task file: not TOML\n")),
        ]
        for words, first, second, reply in cases:
            with self.subTest(words=words, first=first, second=second):
                self.assertEqual(ask(words, first, second), reply)
                self.assertEqual(ask(iter(words), bytearray(first), bytearray(second)), reply)

    def test_no_command(self) -> None:
        forms: List[List[str]] = [[], ["no"], ["check"], ["check"] * 9, ["check", "\N{BULLET}", "1"]]
        for words in forms:
            with self.subTest(words=words):
                ended, text = ask(words)
                self.assertEqual((ended, text[:7]), (2, b"usage: "))

    def test_a_reply_longer_than_the_first_buffer(self) -> None:
        """A hundred thousand idle ticks of a chart: the task's name filled up to six characters, a space, and the dots."""
        ended, text = ask(["chart", "1", "2"], FILE, b"event,tick,task,job,how\n" + b"".join(
            b"idle,%d,,,\n" % tick for tick in range(100_000)
        ))
        self.assertEqual((ended, text), (0, b"a      " + b"." * 100_000 + b"\n(mode) " + b"L" * 100_000 + b"\n"))

    def test_threads_are_not_started(self) -> None:
        for words in (["soak", "1", "8", "100"], ["live", "1", "10"], ["live", "absent", "10"], ["runall", "1", "2", "5", "2"]):
            with self.subTest(words=words):
                self.assertIs(self.refused(lambda: ask(words, FILE)).status, Status.THREADS)
        for words in (["soak", "1", "8", "0"], ["live", "1", "100001"], ["runall", "1", "2", "5", "17"], ["live", "1", "10", "2"]):
            with self.subTest(words=words):
                self.assertEqual(ask(words, FILE)[0], 2)

    def test_what_each_status_stores(self) -> None:
        """The buffer, the length and the exit status, filled before the call: the reply to check has 8 + 3 * 9 + 11 bytes."""
        reply, before = b"tasks 1\nU_LL 1/2\nU_HL 0/1\nU_HH 0/1\nrule plain\n", b"\xa5" * 64
        cases: List[Tuple[Any, ...]] = [
            ([b"check", b"1"], 46, (0, 46, 0, reply + before[46:])),
            ([b"check", b"1"], 64, (0, 46, 0, reply + before[46:])),
            ([b"check", b"2"], 64, (0, 20, 3, b"task file: no tasks\n" + before[20:])),
            ([b"check", b"1"], 45, (Status.SHORT_BUFFER, 46, 0, before)),
            ([b"check", b"1"], 0, (Status.SHORT_BUFFER, 46, 0, before)),
            ([b"check", b"\xff"], 64, (Status.ARGUMENT, 0, 0, before)),
            ([b"live", b"\xff", b"10"], 0, (Status.ARGUMENT, 0, 0, before)),
            ([b"live", b"1", b"10"], 64, (Status.THREADS, 0, 0, before)),
            ([b"live", b"1", b"10"], 0, (Status.THREADS, 0, 0, before)),
        ]
        for words, room, stored in cases:
            with self.subTest(words=words, room=room):
                out, length, ended = ctypes.create_string_buffer(before, len(before)), size(2**32 - 1), u32(2**32 - 1)
                array = (ctypes.c_char_p * len(words))(*words)
                status = library.ask(len(words), array, FILE, len(FILE), b"", 0, out, room, length, ended)
                self.assertEqual((status, length.value, ended.value, out.raw), stored)


class Run(Case):
    def test_each_row(self) -> None:
        """An overrun at tick 1 discards the job of log; ctl has its 6 ticks; then it is idle, and log has its second job."""
        rows = run(CONTROL, [Job("ctl", 0, 6), Job("log", 0, 3), Job("log", 10, 2)], 13)
        self.assertEqual(rows, trace(
            "kept:ctl:1 kept:log:1 more:ctl:1 over:ctl:1 more:ctl:1*3 done:ctl:1 idle*4 kept:log:2 more:log:2 done:log:2 idle"
        ))
        self.assertTrue(judge(CONTROL, rows).legal)

    def test_jobs_in_any_order(self) -> None:
        """Jobs are taken in the order of their releases, and those of one tick in the order in which they stand."""
        rows = run(CONTROL, iter([Job("log", 10, 1), Job("log", 0, 1), Job("ctl", 0, 1)]), 11)
        self.assertEqual(rows, trace("kept:log:1 kept:ctl:1 done:ctl:1 done:log:1 idle*8 kept:log:2 done:log:2"))

    def test_a_job_that_is_stopped(self) -> None:
        rows = run([Task("a", "low", 9, 2)], [Job("a", 0, 5)], 3)
        self.assertEqual(rows, trace("kept:a:1 more:a:1 stop:a:1 idle"))

    def test_a_low_task_with_its_budget_twice(self) -> None:
        given = [CTL, Task("log", "low", 10, 5, 5)]
        self.assertEqual(run(given, [Job("log", 0, 1)], 1), [Row(Event.KEPT, "log", 1), Row(Event.DONE, "log", 1)])

    def test_each_form_of_a_name(self) -> None:
        for name in ("a", "A-Z_09", "-", "_", "0", "n" * 32):
            with self.subTest(name=name):
                self.assertEqual(run([Task(name, "low", 4, 1)], [Job(name, 0, 1)], 1)[1], Row(Event.DONE, name, 1))

    def test_refused(self) -> None:
        cases: List[Tuple[Any, ...]] = [
            ([], [], 4, (3, "task file: no tasks")),
            ([Task("a", "low", 0, 1)], [], 4, (3, "task file: task 1: out of range period")),
            ([CTL, Task("b", "high", 9, 3, 2)], [], 4, (3, "task file: task 2: high budget below low budget")),
            ([CTL, Task("b", "low", 9, 3, 4)], [], 4, (3, "task file: task 2: high budget on a low task")),
            (TOO_MUCH, [], 4, (1, "not admitted: U_LL 9/10 U_HL 1/5 U_HH 3/5")),
            (CONTROL, [Job("no", 0, 1)], 4, (4, "work file line 2: unknown task")),
            (CONTROL, [Job("ctl", 0, 0)], 4, (4, "work file line 2: need is 0")),
            (CONTROL, [Job("ctl", 2**32, 1)], 4, (4, "work file line 2: bad number")),
            (CONTROL, [Job("ctl", 3, 1), Job("ctl", 0, 1)], 9, (4, "work file line 3: too soon, next 10")),
        ]
        for tasks, jobs, ticks, refusal in cases:
            with self.subTest(tasks=tasks, jobs=jobs):
                self.assertEqual(self.command_refused(lambda: run(tasks, jobs, ticks)), refusal)
        for ticks in (0, 1_000_001, 2**64 - 1):
            self.assertEqual(self.command_refused(lambda: run(CONTROL, [], ticks))[0], 2)


if __name__ == "__main__":
    unittest.main()
