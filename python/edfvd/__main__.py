"""The commands of the program that start no thread, in this process, the table of what may change in a set, and the tools.

A command has the words, the text and the exit status that it has in the program. Files are those of the program.

usage: python3 -m edfvd check TASKS
       python3 -m edfvd run TASKS WORK TICKS
       python3 -m edfvd judge TASKS TRACE [P Q]
       python3 -m edfvd chart TASKS TRACE
       python3 -m edfvd report TASKS TRACE
       python3 -m edfvd migrate TASKS TRACE
       python3 -m edfvd partition TASKS M
       python3 -m edfvd stretch TASKS
       python3 -m edfvd accept NUMBER SETS TASKCOUNT
       python3 -m edfvd demand DEMANDS
       python3 -m edfvd sensitivity TASKS
       python3 -m edfvd explain TASKS TRACE [P Q]
       python3 -m edfvd svg TASKS TRACE FROM TO
       python3 -m edfvd perfetto TASKS TRACE
       python3 -m edfvd jobs TASKS TICKS [--seed SEED] [--overruns EVERY]
       python3 -m edfvd divisors TASKS [NUMBER]
       python3 -m edfvd periods [SETS [SEED]]
       python3 -m edfvd COMMAND --help
       python3 -m edfvd --version
"""

from __future__ import annotations

import errno
import os
import runpy
import sys
from pathlib import Path
from typing import List, Sequence

from . import CommandRefused, Refused, __version__, ask, read_tasks
from ._files import MOST_BYTES, MOST_TRACE_BYTES
from ._table import table

# The files of each command of the program, which are its first words, and how many words may follow.
PROGRAM = {
    "check": ("TASKS", (0,)), "run": ("TASKS WORK", (1,)), "judge": ("TASKS TRACE", (0, 2)), "chart": ("TASKS TRACE", (0,)),
    "report": ("TASKS TRACE", (0,)), "migrate": ("TASKS TRACE", (0,)), "partition": ("TASKS", (1,)), "stretch": ("TASKS", (0,)),
    "accept": ("", (3,)), "demand": ("DEMANDS", (0,)),
}
TOOLS = ("explain", "svg", "perfetto", "jobs", "divisors", "periods")
_CHECKED = (0, 1)  # the statuses of check for a set that is in range: it is admitted, or not
_WRONG_WORDS, _NO_READER, _READ_FAULT, _WRITE_FAULT = 2, 3, 7, 8


def usage_of(command: str) -> str:
    """The usage of a command, or of all of them for another word."""
    page = __doc__ or ""
    lines = page[page.index("usage: "):].splitlines()
    own = [line for line in lines if line[7:].split()[3:4] == [command]]
    return f"usage: {own[0][7:]}\n" if own else "\n".join(lines) + "\n"


def _wrong(command: str) -> int:
    sys.stderr.write(usage_of(command))
    return _WRONG_WORDS


def _bytes_in(path: str, most: int) -> bytes:
    """The bytes of a file, of which there is one more than there may be if it is too long."""
    with open(path, "rb") as file:
        return file.read(most + 1)


def run_program(command: str, words: Sequence[str]) -> int:
    """Writes what the program replies, and returns its exit status."""
    named, counts = PROGRAM[command]
    files = named.split()
    if len(words) - len(files) not in counts:
        return _wrong(command)
    contents = [
        _bytes_in(path, MOST_TRACE_BYTES if kind == "TRACE" else MOST_BYTES) for kind, path in zip(files, words)
    ]
    try:
        status, text = ask([command, *"12"[:len(files)], *words[len(files):]], *contents)
    except ValueError:  # a word that is no text
        return _wrong(command)
    if status == _WRONG_WORDS:
        return _wrong(command)
    sys.stdout.write(text.decode())
    return status


def run_sensitivity(words: Sequence[str]) -> int:
    """Writes the table of a task file, and returns the exit status."""
    if len(words) != 1:
        return _wrong("sensitivity")
    given = _bytes_in(words[0], MOST_BYTES)
    ended, text = ask(["check", "1"], given)
    if ended not in _CHECKED:
        raise CommandRefused(ended, text.decode().rstrip("\n"))
    sys.stdout.write(table(*read_tasks(text=given)))
    return 0


def run_tool(tool: str, words: Sequence[str]) -> int:
    """Runs a tool, which ends the process. In the repository it is in tools, in an installed package in a folder of that."""
    here = Path(__file__).resolve().parent
    beside = here.parents[1] / "tools"
    folder = here / "_tools" if (here / "_tools").exists() else beside
    path = folder / f"{tool}.py"
    if not path.exists():
        sys.stderr.write(f"{path}: {os.strerror(errno.ENOENT)}\n")
        return _READ_FAULT
    # Tools import the modules beside them, and svg.py the drawing in this folder.
    sys.path.insert(0, str(folder))
    sys.path.append(str(here))
    sys.argv = [str(path), *words]
    runpy.run_path(str(path), run_name="__main__")
    return 0


def main(words: Sequence[str]) -> int:
    """Answers the words, and returns the exit status."""
    command, *others = [*words, ""]
    others = others[:-1]
    if words in (["--help"], ["-h"], ["--version"]):
        sys.stdout.write(f"edfvd {__version__}\n" if command == "--version" else usage_of(""))
        return 0
    if command in TOOLS:
        return run_tool(command, others)
    if command not in PROGRAM and command != "sensitivity":
        return _wrong("")
    if "--help" in others:
        sys.stdout.write(usage_of(command))
        return 0
    try:
        return run_sensitivity(others) if command == "sensitivity" else run_program(command, others)
    except CommandRefused as refused:
        status, line = refused.exit_status, str(refused)
    except Refused as refused:
        status, line = refused.status, str(refused)
    except ImportError as error:  # tomllib, before Python 3.11
        status, line = _NO_READER, str(error)
    except OSError as error:
        if error.filename is None:
            raise
        status, line = _READ_FAULT, f"{os.fsdecode(error.filename)}: {error.strerror}"
    sys.stderr.write("".join(one if one.isprintable() else "?" for one in line) + "\n")
    return status


def _ends(words: List[str]) -> int:
    """The exit status for the words; a standard output that takes no more has a line and a status of its own."""
    try:
        if sys.stdout is None:
            raise OSError(errno.EBADF, os.strerror(errno.EBADF))
        status = main(words)
        sys.stdout.flush()
    except OSError as error:
        sys.stderr.write(f"standard output: {error.strerror}\n")
        # What is not written yet would be tried again at the end.
        os.dup2(os.open(os.devnull, os.O_WRONLY), 1)
        return _WRITE_FAULT
    return status


if __name__ == "__main__":
    sys.exit(_ends(sys.argv[1:]))
