"""Files read and written: what the program accepts and no more, its messages, and the values worked out by hand."""

import copy
import os
import pickle
import sys
import tempfile
import unittest
from fractions import Fraction
from pathlib import Path
from typing import Any, Callable, List, Tuple

import edfvd
from edfvd import (
    Event, Job, Row, Status, Task, TaskFile, Trace, chart, judge, read_tasks, read_trace, read_work, report, run, svg, write_tasks,
    write_trace,
)
from edfvd import _library
from support import CONTROL, CTL, LOG, TOO_MUCH, Case
from test_judge import trace

untyped: Any = edfvd
HEADER = "event,tick,length,task,job,how\n"
CONTROL_FILE = """\
[[task]]
name = "ctl"
level = "high"
period = 10
low = 2
high = 6
[[task]]
name = "log"
level = "low"
period = 10
low = 5
"""
# The schedule of an overrun: ctl passes its low budget with tick 1, which discards the job of log.
OVERRUN = "kept:ctl:1 kept:log:1 more:ctl:1 over:ctl:1 more:ctl:1*3 done:ctl:1 idle*4"
OVERRUN_TRACE = HEADER + """\
release,0,,ctl,1,kept
release,0,,log,1,kept
tick,0,1,ctl,1,more
tick,1,1,ctl,1,over
tick,2,3,ctl,1,more
tick,5,1,ctl,1,done
idle,6,4,,,
"""
HAS_TOML = sys.version_info >= (3, 11)


class InAFolder(Case):
    def setUp(self) -> None:
        folder = tempfile.TemporaryDirectory(prefix="a folder with spaces ")
        self.addCleanup(folder.cleanup)
        self.folder = Path(folder.name)


@unittest.skipUnless(HAS_TOML, "there is no tomllib")
class TaskFiles(InAFolder):
    def test_values(self) -> None:
        self.assertEqual(read_tasks(text=CONTROL_FILE), TaskFile(CONTROL, None))
        self.assertEqual(read_tasks(text=CONTROL_FILE.encode()).tasks, [CTL, LOG])
        scaled = read_tasks(text="version = 2\nscale = [4, 10]\n" + CONTROL_FILE)
        self.assertEqual((scaled.tasks, scaled.scale), (CONTROL, Fraction(2, 5)))

    def test_a_path(self) -> None:
        path = self.folder / "two words.toml"
        path.write_text(CONTROL_FILE)
        self.assertEqual(read_tasks(path).tasks, CONTROL)
        self.assertEqual(read_tasks(str(path)).tasks, CONTROL)
        with self.assertRaises(FileNotFoundError):
            read_tasks(self.folder / "none.toml")

    def test_forms_of_toml(self) -> None:
        """What the program reads has the same values here: forms of TOML 1.0, and those of 1.1 that Python's reader has not."""
        one = [Task("a", "low", 10, 4)]
        texts: List[str] = [
            "task = [{name='a', level='low', period=10, low=4}]",
            "\ufefftask = [{name='a', level='low', period=10, low=4}]",
            "task = [{name='a', level='low', period=0xA, low=0b100}] # [{",
            "task = [{'name'='a', \"level\"='''low''', period=1_0, low=+4}]\r\n",
            "[[task]]\nname = \"\\u0061\"\nlevel = \"\"\"\\\n  low\"\"\"\nperiod = 0o12\nlow = 4\n",
            "task = [{name='a', level='low', period=10, low=4,}]",
            "task = [{name='a',\n  level='low', # a comment, with } and \"\n  period=10,\n  low=4, # the last\n}, ]",
            "task = [\r\n{name='a',\r\n  level='low',\r\n  period=10,\r\n  low=4\r\n}\r\n]",
            "task = [{name=\"\\x61\", level=\"l\\x6fw\", period=10, low=4}]",
            "task = [{\"n\\x61me\"='a', level='low', period=10, low=4,\n\n}]",
            "task = [{name='a', level=\"\"\"low\"\"\", period=10,\n low=4}]",
        ]
        for text in texts:
            with self.subTest(text=text):
                self.assertEqual(read_tasks(text=text).tasks, one)

    def test_refused(self) -> None:
        cases: List[Tuple[Any, Tuple[int, str]]] = [
            ("", (3, "task file: no tasks")), ("task = [", (3, "task file: not TOML")), (b"\xff", (3, "task file: not TOML")),
            ("task = 1", (3, "task file: task 0: wrong kind of task")),
            (CONTROL_FILE.replace("low = 2", "low = 7"), (3, "task file: task 1: high budget below low budget")),
            (CONTROL_FILE.replace("log", "ctl"), (3, "task file: tasks 1 and 2 have one name")),
            (CONTROL_FILE + "# " * 2**23, (7, "the text is longer than 16777216 bytes")),
        ]
        for text, refusal in cases:
            with self.subTest(text=text[:40]):
                self.assertEqual(self.command_refused(lambda: read_tasks(text=text)), refusal)
        path = self.folder / "large.toml"
        path.write_text(CONTROL_FILE + "# " * 2**23)
        self.assertEqual(self.command_refused(lambda: read_tasks(path)), (7, f"{path} is longer than 16777216 bytes"))

    def test_periods_that_only_some_calls_refuse(self) -> None:
        wide = [Task("a", "low", 2**31, 1), Task("b", "low", 3**20, 1)]
        self.assertEqual(read_tasks(text=write_tasks(wide)).tasks, wide)
        self.assertIs(self.refused(lambda: edfvd.check(wide)).status, Status.PERIODS)

    def test_written(self) -> None:
        self.assertEqual(write_tasks(CONTROL), CONTROL_FILE)
        self.assertEqual(write_tasks(CONTROL, scale=Fraction(1, 2)), "version = 2\nscale = [1, 2]\n\n" + CONTROL_FILE)
        path = self.folder / "new.toml"
        self.assertEqual(write_tasks(iter(CONTROL), path), CONTROL_FILE)
        self.assertEqual(path.read_bytes(), CONTROL_FILE.encode())
        self.assertEqual(read_tasks(path), (CONTROL, None))

    def test_what_is_not_written(self) -> None:
        path = self.folder / "none.toml"
        cases: List[Tuple[List[Task], Tuple[int, str]]] = [
            ([], (3, "task file: no tasks")), ([Task("a", "low", 0, 1)], (3, "task file: task 1: out of range period")),
            ([Task("a", "low", 4, 1, 2)], (3, "task file: task 1: high budget on a low task")),
        ]
        for tasks, refusal in cases:
            self.assertEqual(self.command_refused(lambda: write_tasks(tasks, path)), refusal)
        self.assertEqual(self.command_refused(lambda: write_tasks(CONTROL, path, scale=Fraction(1, 2**32))),
                         (3, "task file: task 0: out of range scale"))
        self.assertFalse(path.exists())

    def test_wrong_types(self) -> None:
        calls: List[Callable[[], object]] = [
            lambda: untyped.read_tasks(), lambda: untyped.read_tasks("a", text="b"), lambda: untyped.read_tasks(text=5),
            lambda: untyped.read_tasks(text=bytearray(b"")), lambda: untyped.read_tasks([]), lambda: untyped.write_tasks(5),
            lambda: untyped.write_tasks(CONTROL, scale=0.5),
        ]
        for place, call in enumerate(calls):
            with self.subTest(place=place), self.assertRaises(TypeError):
                call()


class Paths(InAFolder):
    def test_a_number_is_no_path(self) -> None:
        """A number of an open file is refused before anything is opened, so that the file stays open."""
        path = self.folder / "open"
        with open(path, "wb") as file:
            for wrong in (file.fileno(), True, False, 1.5, b"tasks.toml", bytearray(b"a"), ["a"]):
                for call, *first in (
                    (untyped.read_tasks, ), (untyped.read_work, CONTROL), (untyped.read_trace, CONTROL), (untyped.write_tasks, CONTROL),
                    (untyped.write_trace, CONTROL, []),
                ):
                    with self.subTest(wrong=wrong), self.assertRaisesRegex(TypeError, "^a path must be a str or an os.PathLike, not "):
                        call(*first, wrong)
            file.write(b"still open")
        self.assertEqual(path.read_bytes(), b"still open")

    def test_text_that_utf_8_does_not_have(self) -> None:
        half = "\ud800"
        paths: List[Callable[[], object]] = [
            lambda: read_tasks(half), lambda: write_tasks(CONTROL, half), lambda: write_trace(CONTROL, [], half),
        ]
        for call in paths:
            with self.assertRaisesRegex(ValueError, "^the path is no name of a file: "):
                call()
        texts: List[Callable[[], object]] = [
            lambda: read_tasks(text=half), lambda: read_work(CONTROL, text=half), lambda: read_trace(CONTROL, text=half),
        ]
        for read in texts:
            with self.assertRaisesRegex(ValueError, "^the text is no text that UTF-8 has: "):
                read()
        with self.assertRaisesRegex(ValueError, "^a word is no text that UTF-8 has: "):
            edfvd.ask(["check", half])


class WorkFiles(InAFolder):
    def test_values(self) -> None:
        text = 'task,release,need\r\nctl,0,6\n"log","0",5\n\nlog,10,00005\n'
        jobs = [Job("ctl", 0, 6), Job("log", 0, 5), Job("log", 10, 5)]
        self.assertEqual(read_work(CONTROL, text=text), jobs)
        path = self.folder / "work.csv"
        path.write_bytes(b"\xef\xbb\xbf" + text.encode())
        self.assertEqual(read_work(CONTROL, path), jobs)
        self.assertEqual(run(CONTROL, read_work(CONTROL, path), 13)[:2], trace("kept:ctl:1 kept:log:1"))

    def test_refused(self) -> None:
        for text, line in [
            ("", "work file line 1: header is not task,release,need"), ("task,release,need\nno,0,1\n", "work file line 2: unknown task"),
            ("task,release,need\nctl,0,1\nctl,9,1\n", "work file line 3: too soon, next 10"),
            ("task,release,need\nctl,0,1,\n", "work file line 2: not three fields"),
        ]:
            self.assertEqual(self.command_refused(lambda: read_work(CONTROL, text=text)), (4, line))
        refusal = (1, "not admitted: U_LL 9/10 U_HL 1/5 U_HH 3/5")
        self.assertEqual(self.command_refused(lambda: read_work(TOO_MUCH, text="task,release,need\n")), refusal)


class Traces(InAFolder):
    def test_both_versions(self) -> None:
        rows = trace(OVERRUN)
        found = read_trace(CONTROL, text=OVERRUN_TRACE)
        self.assertEqual(list(found), rows)
        self.assertEqual([times for _, times in found.runs], [1, 1, 1, 1, 3, 1, 4])
        old = "event,tick,task,job,how\nrelease,0,ctl,1,kept\nrelease,0,log,1,kept\ntick,0,ctl,1,more\ntick,1,ctl,1,over\n"
        old += "".join(f"tick,{tick},ctl,1,more\n" for tick in (2, 3, 4)) + "tick,5,ctl,1,done\n"
        old += "".join(f"idle,{tick},,,\n" for tick in range(6, 10))
        self.assertEqual(list(read_trace(CONTROL, text=old)), rows)
        self.assertEqual(read_trace(CONTROL, text=old), found)
        self.assertEqual(list(read_trace(CONTROL, text=HEADER)), [])

    def test_each_kind_of_row(self) -> None:
        """Whether the rows follow the rules is no matter of the file."""
        rows = trace("dropped:log:7 stop:log:4294967295 kept:ctl:0 over:log:1 idle done:ctl:3 more:log:2*5 idle*2")
        text = write_trace(CONTROL, rows)
        self.assertEqual(list(read_trace(CONTROL, text=text)), rows)
        self.assertFalse(judge(CONTROL, rows).legal)

    def test_written(self) -> None:
        path = self.folder / "trace.csv"
        self.assertEqual(write_trace(CONTROL, trace(OVERRUN), path), OVERRUN_TRACE)
        self.assertEqual(path.read_text(), OVERRUN_TRACE)
        self.assertEqual(write_trace(CONTROL, read_trace(CONTROL, path)), OVERRUN_TRACE)
        self.assertEqual(write_trace(CONTROL, []), HEADER)

    def test_refused(self) -> None:
        for text, line in [
            ("", "trace line 1: header is of no trace version"), (HEADER + "idle,1,1,,,\n", "trace line 2: wrong tick"),
            (HEADER + "release,0,,no,1,kept\n", "trace line 2: unknown task"),
            (HEADER + "tick,0,2,ctl,1,done\n", "trace line 2: bad length"),
            (HEADER + "idle,0,100000001,,,\n", "trace line 2: more than 100000000 ticks"),
        ]:
            self.assertEqual(self.command_refused(lambda: read_trace(CONTROL, text=text)), (5, line))
        many = Trace([(Row(Event.IDLE), 100_000_001)])
        self.assertEqual(self.command_refused(lambda: write_trace(CONTROL, many)), (5, "trace line 2: more than 100000000 ticks"))

    def test_rows_that_no_trace_has(self) -> None:
        path = self.folder / "none.csv"
        for row in (Row(Event.HELD, "ctl", 1), Row(Event.GIVEN, "ctl", 1), Row(Event.IDLE, "ctl", 0), Row(Event.IDLE, None, 1),
                    Row(Event.KEPT), Row(Event.KEPT, "no", 1)):
            with self.subTest(row=row), self.assertRaises(ValueError):
                write_trace(CONTROL, [row], path)
        for wrong in ([5], 5, None, [(Event.IDLE, None, 0)]):
            with self.subTest(wrong=wrong), self.assertRaises(TypeError):
                untyped.write_trace(CONTROL, wrong, path)
        self.assertFalse(path.exists())

    def test_a_hundred_million_ticks(self) -> None:
        found = read_trace(CONTROL, text=HEADER + "idle,0,100000000,,,\n")
        self.assertEqual((len(found), found.ticks, found[0], found[99_999_999]), (10**8, 10**8, Row(Event.IDLE), Row(Event.IDLE)))
        self.assertEqual(write_trace(CONTROL, found), HEADER + "idle,0,100000000,,,\n")


class AsASequence(unittest.TestCase):
    def test_a_list_beside_it(self) -> None:
        rows = trace(OVERRUN)
        found = Trace.of(rows)
        self.assertEqual((len(found), list(found), found.ticks), (12, rows, 10))
        for place in range(-12, 12):
            self.assertEqual(found[place], rows[place])
        for part in (slice(None), slice(3, 9), slice(-4, None), slice(None, None, -3), slice(20, 30)):
            self.assertEqual(found[part], rows[part])
        for place in (12, -13):
            with self.assertRaises(IndexError):
                found[place]
        self.assertIn(rows[3], found)
        self.assertEqual(found, Trace((row, 1) for row in rows))
        self.assertNotEqual(found, Trace.of(rows[:-1]))
        self.assertNotEqual(found, rows)
        self.assertEqual(repr(found), "<Trace of 12 rows in 7 runs>")
        ways: List[Callable[[Trace], Any]] = [copy.copy, copy.deepcopy, lambda one: pickle.loads(pickle.dumps(one))]
        for way in ways:
            self.assertEqual(way(found).runs, found.runs)
        self.assertEqual((len(Trace()), list(Trace()), Trace().ticks), (0, [], 0))

    def test_runs_that_are_none(self) -> None:
        row = Row(Event.DONE, "ctl", 1)
        for times, kind in [(0, ValueError), (2, ValueError), (-1, ValueError), (2**64, ValueError), (1.0, TypeError), (None, TypeError)]:
            with self.subTest(times=times), self.assertRaises(kind):
                untyped.Trace([(row, times)])
        for wrong in ("idle", None, 9, Event.IDLE):
            with self.subTest(wrong=wrong), self.assertRaises(TypeError):
                untyped.Trace([(wrong, 1)])
            with self.subTest(wrong=wrong), self.assertRaises(TypeError):
                untyped.Trace.of([wrong, wrong])
        with self.assertRaises(TypeError):
            untyped.Trace.of(memoryview((_library.CTask * 2)()))
        for pair in (row, "ab", 5, (row,), (row, 1, 1)):
            with self.subTest(pair=pair), self.assertRaisesRegex(TypeError, "^a run must be a pair of a Row and its times, not "):
                untyped.Trace([pair])
        with self.assertRaisesRegex(ValueError, "^times is 0, which is not from 1 to "):
            Trace([(row, 0)])
        self.assertEqual(untyped.Trace([[row, 1]]).runs, ((row, 1),))


class Commands(InAFolder):
    def test_chart_and_report(self) -> None:
        """Letters and counts by hand: ctl has ticks 0 to 5, and log's only job is discarded."""
        rows = trace(OVERRUN)
        self.assertEqual(chart(CONTROL, rows), "ctl    #O###D....\nlog    ..........\n(mode) LLHHHHHLLL\n")
        self.assertEqual(report(CONTROL, rows), (
            "task ctl released 1 kept 1 dropped 0 discarded 0 done 1 stopped 0 ticks 6 response 6\n"
            "task log released 1 kept 1 dropped 0 discarded 1 done 0 stopped 0 ticks 0 response -\nidle 4\nswitches 1\n"
        ))

    def test_a_scale_of_its_own(self) -> None:
        """At tick 3, ctl has the virtual deadline 3 + 10x and log the deadline 10: under 4/5 log goes first."""
        rows = trace("kept:log:1 more:log:1*3 kept:ctl:1 more:log:1 done:log:1 done:ctl:1")
        self.assertEqual(chart(CONTROL, rows, Fraction(4, 5)).splitlines()[1], "log    ####D.")
        self.assertEqual(self.command_refused(lambda: chart(CONTROL, rows)), (6, "illegal row 6 not_least"))
        self.assertEqual(self.command_refused(lambda: report(CONTROL, rows)), (6, "illegal row 6 not_least"))

    def test_refused(self) -> None:
        self.assertEqual(self.command_refused(lambda: chart(TOO_MUCH, [])), (1, "not admitted: U_LL 9/10 U_HL 1/5 U_HH 3/5"))
        long = Trace([(Row(Event.IDLE), 2_000_001)])
        self.assertEqual(self.command_refused(lambda: chart(CONTROL, long)), (5, "trace has 2000001 ticks, a chart has at most 2000000"))

    def test_picture(self) -> None:
        text = svg(CONTROL, trace(OVERRUN), 0, 10)
        self.assertTrue(text.startswith("<svg ") and text.endswith("</svg>\n"))
        for words in ("ctl (high)", "log (low)", "ctl 1, tick 1, over", "log 1, discarded at 2", "high mode, ticks 2 to 6",
                      "ctl 1, tick 2 to 4, more", "ctl 1, deadline 10"):
            self.assertEqual(text.count(f">{words}<"), 1, words)
        for begin, end, kind in [(3, 3, ValueError), (-1, 4, ValueError), (0, 2**32, ValueError), (0.0, 4, TypeError)]:
            with self.subTest(begin=begin), self.assertRaises(kind):
                untyped.svg(CONTROL, [], begin, end)
        self.assertIs(self.refused(lambda: svg([], [], 0, 4)).status, Status.EMPTY)

    def test_a_picture_is_that_of_the_tool(self) -> None:
        tool = Path(__file__).resolve().parents[2] / "tools" / "svg.py"
        if not tool.exists() or not HAS_TOML:
            self.skipTest("the tools are not beside the package")
        import subprocess
        write_tasks(CONTROL, self.folder / "tasks.toml")
        write_trace(CONTROL, trace(OVERRUN), self.folder / "trace.csv")
        drawn = subprocess.run(
            [sys.executable, "-B", str(tool), "tasks.toml", "trace.csv", "1", "9"], cwd=self.folder, stdout=subprocess.PIPE, check=True,
            env={key: value for key, value in os.environ.items() if key != "EDFVD_LIBRARY"},
        )
        self.assertEqual(drawn.stdout.decode(), svg(CONTROL, trace(OVERRUN), 1, 9))


if __name__ == "__main__":
    unittest.main()
