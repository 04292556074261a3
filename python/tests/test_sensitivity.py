"""What may change in a set, on sets worked out by hand, what is refused, and the table of ``python3 -m edfvd``."""

import contextlib
import io
import os
import subprocess
import sys
import tempfile
import unittest
from fractions import Fraction
from pathlib import Path
from typing import Any, Callable, List, Optional, Sequence, Tuple

from edfvd import Refused, ScaleRange, Status, Task, scales, sensitivity, speed
from edfvd.__main__ import main

CONTROL = [Task("ctl", "high", period=10, low=2, high=6), Task("log", "low", period=10, low=5)]
REFUSED = [Task("ctl", "high", period=10, low=4, high=8), Task("log", "low", period=10, low=5)]
FULL = [Task("ctl", "high", period=3, low=1, high=3), Task("log", "low", period=3, low=2)]
TAKEN = [Task("tap", "low", period=2, low=2)]
HEAVY = [Task("tap", "low", period=2, low=3)]
LARGE = [Task("big", "high", period=2**32 - 1, low=1, high=2**32 - 1)]

CONTROL_FILE = """
task = [{ name = "ctl", level = "high", period = 10, low = 2, high = 6 }, { name = "log", level = "low", period = 10, low = 5 }]
"""

CONTROL_TABLE = """\
published test: EDF-VD with the scale 2/5
scales that hold: 2/5 to 4/5
least speed: 0.870157

task  level  period  low  at most  high  at most
ctl   high       10    2        4     6        8
log   low        10    5        6     -        -
"""

FULL_TABLE = """\
published test: not admitted
scales that hold: none
least speed: 1.333334

task  level  period  low  at most  high  at most
ctl   high        3    1     none     3        1
log   low         3    2     none     -        -
"""


SLOW_FILE = 'task = [{ name = "big", level = "low", period = 4294967295, low = 1 }]'

SLOW_TABLE = """\
published test: plain EDF
scales that hold: 0/1 to 1/1
least speed: 0.000001

task  level      period  low     at most  high  at most
big   low    4294967295    1  4294967295     -        -
"""


class Margins(unittest.TestCase):
    def test_greatest_budgets(self) -> None:
        for tasks, expected in [
            (CONTROL, [("ctl", 4, 8), ("log", 6, None)]),
            (REFUSED, [("ctl", 2, 6), ("log", 3, None)]),
            (FULL, [("ctl", None, 1), ("log", None, None)]),
            (HEAVY, [("tap", 2, None)]),
            (LARGE, [("big", 2**32 - 1, 2**32 - 1)]),
        ]:
            self.assertEqual([(most.task, most.low, most.high) for most in sensitivity(tasks)], expected)

    def test_scales(self) -> None:
        self.assertEqual(scales(CONTROL), ScaleRange(Fraction(2, 5), Fraction(4, 5)))
        self.assertEqual(scales(TAKEN), ScaleRange(Fraction(0), Fraction(1)))
        self.assertEqual(scales(LARGE), ScaleRange(Fraction(1, 2**32 - 1), Fraction(1)))
        self.assertIsNone(scales(REFUSED))
        self.assertIsNone(scales(HEAVY))

    def test_which_scales_are_in_a_range(self) -> None:
        held = ScaleRange(Fraction(2, 5), Fraction(4, 5))
        inside = [Fraction(2, 5), Fraction(1, 2), Fraction(4, 5)]
        self.assertTrue(all(scale in held for scale in inside))
        self.assertFalse(any(scale in held for scale in [Fraction(0), Fraction(39, 100), Fraction(81, 100)]))
        self.assertFalse(Fraction(0) in ScaleRange(Fraction(0), Fraction(1)))
        wrong: Any
        for wrong in (None, 0.5, "1/2", True, 1j):
            with self.subTest(wrong=wrong), self.assertRaisesRegex(TypeError, "^the scale must be a Fraction, not "):
                wrong in held

    def test_speed(self) -> None:
        for tasks, millionths in [
            (CONTROL, 870157), (REFUSED, 1121700), (FULL, 1333334), (TAKEN, 1000000), (HEAVY, 1500000), (LARGE, 1000000),
        ]:
            self.assertEqual(speed(tasks), Fraction(millionths, 1000000))

    def test_what_is_refused(self) -> None:
        calls: List[Callable[[Sequence[Task]], object]] = [sensitivity, scales, speed]
        cases: List[Tuple[List[Task], Status, Optional[str]]] = [
            ([], Status.EMPTY, None),
            ([Task(str(place), "low", 1000, 1) for place in range(129)], Status.TOO_MANY, None),
            ([Task("a", "low", 4, 1), Task("b", "low", 0, 1)], Status.ZERO_NUMBER, "b"),
            ([Task("a", "high", 4, 2, 1)], Status.BUDGET_ORDER, "a"),
            ([Task("a", "low", 4294967291, 1), Task("b", "low", 4294967279, 1)], Status.PERIODS, "b"),
        ]
        for tasks, status, task in cases:
            for call in calls:
                with self.assertRaises(Refused) as caught:
                    call(tasks)
                self.assertEqual((caught.exception.status, caught.exception.task), (status, task))


class Command(unittest.TestCase):
    def asked(self, text: str, *words: str) -> Tuple[int, str, str]:
        """The status, standard output and standard error of the command on this file."""
        with tempfile.TemporaryDirectory() as folder:
            path = Path(folder) / "tasks.toml"
            path.write_text(text)
            out, err = io.StringIO(), io.StringIO()
            with contextlib.redirect_stdout(out), contextlib.redirect_stderr(err):
                status = main([*(words or ("sensitivity", str(path)))])
        return status, out.getvalue(), err.getvalue()

    @unittest.skipIf(sys.version_info < (3, 11), "there is no tomllib")
    def test_tables(self) -> None:
        self.assertEqual(self.asked(CONTROL_FILE), (0, CONTROL_TABLE, ""))
        full = CONTROL_FILE.replace("10", "3").replace("low = 2, high = 6", "low = 1, high = 3").replace("low = 5", "low = 2")
        self.assertEqual(self.asked(full), (0, FULL_TABLE, ""))
        self.assertEqual(self.asked(SLOW_FILE), (0, SLOW_TABLE, ""))
        for own, line in [("1, 2", "1/2, which holds"), ("4, 5", "4/5, which holds"), ("5, 6", "5/6, which does not hold")]:
            status, text, _ = self.asked(f"version = 2\nscale = [{own}]\n" + CONTROL_FILE)
            self.assertEqual((status, text.splitlines()[2]), (0, f"the set's own scale: {line}"))

    def test_refusals(self) -> None:
        self.assertEqual(self.asked("task = 1\n"), (3, "", "task file: task 0: wrong kind of task\n"))
        wide = CONTROL_FILE.replace("period = 10", "period = 4294967291", 1).replace("period = 10", "period = 4294967279", 1)
        self.assertEqual(self.asked(wide), (3, "", "task file: task 2: periods out of range\n"))
        self.assertEqual(self.asked(CONTROL_FILE + "# " * 2**23), (7, "", "file 1 is longer than 16777216 bytes\n"))
        self.assertEqual(self.asked(CONTROL_FILE, "sensitivity", "/nowhere"), (7, "", "/nowhere: No such file or directory\n"))

    def test_words(self) -> None:
        usage = "usage: python3 -m edfvd sensitivity TASKS\n"
        self.assertEqual(self.asked("", "sensitivity", "--help"), (0, usage, ""))
        for words in (["sensitivity"], ["sensitivity", "x", "y"]):
            self.assertEqual(self.asked("", *words), (2, "", usage))

    @unittest.skipIf(sys.version_info < (3, 11) or not os.path.exists("/dev/full"), "there is no tomllib or no full disk")
    def test_a_full_disk(self) -> None:
        with tempfile.TemporaryDirectory() as folder:
            path = Path(folder) / "tasks.toml"
            path.write_text(CONTROL_FILE)
            with open("/dev/full", "wb") as full:
                ended = subprocess.run(
                    [sys.executable, "-m", "edfvd", "sensitivity", str(path)], stdout=full, stderr=subprocess.PIPE,
                    env={**os.environ, "PYTHONPATH": str(Path(__file__).parent.parent)}, check=False,
                )
        self.assertEqual((ended.returncode, ended.stderr), (8, b"standard output: No space left on device\n"))


if __name__ == "__main__":
    unittest.main()
