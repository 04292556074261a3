"""``python3 -m edfvd``: the words of each command, its text and status beside the program's, files, and the tools."""

import contextlib
import io
import os
import re
import subprocess
import sys
import tempfile
import unittest
from pathlib import Path
from typing import List, Tuple

import edfvd
from edfvd.__main__ import PROGRAM, TOOLS, main, usage_of
from test_files import CONTROL_FILE, HEADER, OVERRUN_TRACE

ROOT = Path(__file__).resolve().parents[2]
EXAMPLES = ROOT / "examples"
CITED = ROOT / "CITATION.cff"
WORK = "task,release,need\nctl,0,6\nlog,0,5\n"
HAS_TOML = sys.version_info >= (3, 11)


class Commands(unittest.TestCase):
    def setUp(self) -> None:
        folder = tempfile.TemporaryDirectory(prefix="with spaces ")
        self.addCleanup(folder.cleanup)
        self.folder = Path(folder.name)
        for name, text in [("a set.toml", CONTROL_FILE), ("work", WORK), ("trace", OVERRUN_TRACE), ("demands", "task,period,deadline,budget\na,4,2,1\n")]:
            (self.folder / name).write_text(text)

    def path(self, name: str) -> str:
        return str(self.folder / name)

    def asked(self, *words: str) -> Tuple[int, str, str]:
        """The status, standard output and standard error."""
        out, err = io.StringIO(), io.StringIO()
        with contextlib.redirect_stdout(out), contextlib.redirect_stderr(err):
            status = main(list(words))
        return status, out.getvalue(), err.getvalue()

    def test_each_command(self) -> None:
        tasks, trace = self.path("a set.toml"), self.path("trace")
        for words, reply in [
            (["check", tasks], "tasks 2\nU_LL 1/2\nU_HL 1/5\nU_HH 3/5\nrule virtual\nx 2/5\n"),
            (["run", tasks, self.path("work"), "10"], OVERRUN_TRACE), (["judge", tasks, trace], "legal late 0\n"),
            (["judge", tasks, trace, "1", "2"], "legal late 0\n"),
            (["chart", tasks, trace], "ctl    #O###D....\nlog    ..........\n(mode) LLHHHHHLLL\n"),
            (["migrate", tasks, trace], OVERRUN_TRACE), (["partition", tasks, "1"], "processor 1 ctl log\n"),
            (["stretch", tasks], "stretch 149\nU_HH 4/5 at 149\nU_HH 9/10 at 150\n"), (["demand", self.path("demands")], "schedulable, demand checked to 4\n"),
        ]:
            with self.subTest(words=words):
                self.assertEqual(self.asked(*words), (0, reply, ""))
        self.assertEqual(self.asked("accept", "1", "50", "8")[1].splitlines()[0], "100 50")
        self.assertEqual(self.asked("report", tasks, trace)[1].splitlines()[-2:], ["idle 4", "switches 1"])

    def test_refusals(self) -> None:
        (self.folder / "bad").write_text("task = [")
        late = self.path("late")
        Path(late).write_text(HEADER + "release,0,,ctl,1,kept\nidle,0,1,,,\n")
        cases: List[Tuple[List[str], Tuple[int, str, str]]] = [
            (["check", self.path("bad")], (3, "task file: not TOML\n", "")),
            (["judge", self.path("a set.toml"), late], (6, "illegal row 2 idle_pending\n", "")),
            (["check", self.path("none")], (7, "", f"{self.path('none')}: No such file or directory\n")),
            (["run", self.path("a set.toml"), self.path("trace"), "9"],
             (4, "work file line 1: header is not task,release,need\n", "")),
        ]
        for words, ended in cases:
            with self.subTest(words=words):
                self.assertEqual(self.asked(*words), ended)

    def test_wrong_words(self) -> None:
        tasks = self.path("a set.toml")
        cases: List[Tuple[str, List[str]]] = [
            ("check", []), ("check", [tasks, "1"]), ("run", [tasks, tasks]), ("run", [tasks, tasks, "x"]), ("judge", [tasks, tasks, "1"]),
            ("judge", [tasks, tasks, "3", "2"]), ("partition", [tasks, "17"]), ("stretch", []), ("accept", ["1", "2"]),
            ("accept", ["1", "0", "8"]), ("demand", []), ("sensitivity", []), ("run", [tasks, tasks, "\udcff"]),
        ]
        for command, words in cases:
            with self.subTest(command=command, words=words):
                self.assertEqual(self.asked(command, *words), (2, "", usage_of(command)))
        without: List[List[str]] = [[], ["no"], ["soak", "1", "8", "100"], [""], ["CHECK"], ["--no"], ["--help", "check"], ["--version", "1"]]
        for others in without:
            with self.subTest(words=others):
                self.assertEqual(self.asked(*others), (2, "", usage_of("")))

    def test_help(self) -> None:
        status, text, error = self.asked("--help")
        self.assertEqual((status, error), (0, ""))
        commands = re.findall(r"python3 -m edfvd (\S+)", text)
        self.assertEqual(sorted(commands), sorted([*PROGRAM, *TOOLS, "sensitivity", "COMMAND", "--version"]))
        for command in [*PROGRAM, "sensitivity"]:
            status, text, error = self.asked(command, "--help")
            self.assertEqual((status, text.count("\n"), error), (0, 1, ""))
            self.assertTrue(text.startswith(f"usage: python3 -m edfvd {command}"))

    def test_version(self) -> None:
        self.assertEqual(self.asked("--version"), (0, f"edfvd {edfvd.__version__}\n", ""))
        if CITED.exists():
            self.assertIn(f"\nversion: {edfvd.__version__}\n", CITED.read_text())


@unittest.skipUnless(EXAMPLES.exists(), "the package is not in its repository")
class Processes(unittest.TestCase):
    def ended(self, *words: str) -> Tuple[int, str, str]:
        """The status, standard output and standard error of a process."""
        done = subprocess.run(
            [sys.executable, "-B", "-m", "edfvd", *words], cwd=EXAMPLES, capture_output=True, text=True, check=False, timeout=60,
            env={**os.environ, "PYTHONPATH": str(ROOT / "python")},
        )
        return done.returncode, done.stdout, done.stderr

    def test_an_example(self) -> None:
        expected = (EXAMPLES / "control" / "check.txt").read_text()
        self.assertEqual(self.ended("check", "control/tasks.toml"), (0, expected, ""))

    @unittest.skipUnless(HAS_TOML, "there is no tomllib")
    def test_tools(self) -> None:
        tasks, trace = "explained/../judged/tasks.toml", "judged/illegal.csv"
        for tool, words in [
            ("explain", [tasks, trace]), ("svg", [tasks, trace, "0", "5"]), ("perfetto", [tasks, trace]), ("jobs", [tasks, "50"]),
            ("divisors", [tasks]), ("periods", ["2"]),
        ]:
            with self.subTest(tool=tool):
                done = subprocess.run(
                    [sys.executable, "-B", str(ROOT / "tools" / f"{tool}.py"), *words], cwd=EXAMPLES, capture_output=True, text=True, check=False,
                )
                self.assertNotEqual(done.stdout, "")
                self.assertEqual(self.ended(tool, *words), (done.returncode, done.stdout, done.stderr))
        for tool in TOOLS:
            status, text, error = self.ended(tool, "--help")
            self.assertEqual((status, text[:len(f"usage: {tool}.py")], error), (0, f"usage: {tool}.py", ""))
            self.assertEqual(self.ended(tool, "--no")[0], 2)

    def test_a_full_disk(self) -> None:
        commands: List[List[str]] = [["check", "control/tasks.toml"], ["--help"]]
        for words in commands:
            with open("/dev/full", "wb") as full:
                done = subprocess.run(
                    [sys.executable, "-B", "-m", "edfvd", *words], cwd=EXAMPLES, stdout=full, stderr=subprocess.PIPE, check=False,
                    env={**os.environ, "PYTHONPATH": str(ROOT / "python")},
                )
            self.assertEqual((done.returncode, done.stderr), (8, b"standard output: No space left on device\n"))


if __name__ == "__main__":
    unittest.main()
