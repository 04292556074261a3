"""Compares the memory that docs/COMMANDS.md names for the worst inputs with what the program takes. The rows are those of the
page's table of time and memory; bench/bounds.py makes the input of each by its words. Each command of a row may take a tenth more
than the page says, and takes no less than seven tenths of it. No other input of bounds.py takes a tenth more than the worst row of
its command. Seconds are shown, and not compared. It needs GNU time (Debian's package time) and 1 GB for its files.

usage: costs.py PROGRAM [PAGE]
       compares with this page in the place of COMMANDS.md
"""

import concurrent.futures
import os
import pathlib
import re
import sys
import tempfile
from typing import NamedTuple

import with_tools
from usage import WrongWords, ends

ROOT = pathlib.Path(__file__).resolve().parent.parent
sys.path.insert(0, str(ROOT / 'bench'))
from bounds import METER, WORST, Files, measured

MOST, LEAST = 1.1, 0.7
# The page rounds to whole MiB.
ROUNDING = 0.5
MOST_SECONDS = 300
# A text is written, or the trace is refused, illegal or late, or a deadline of the demand file can be missed.
ANSWERS = {0, 5, 6, 10}


class Row(NamedTuple):
    """A row of the table, for one of its commands. The memory is in MiB, and 0 where the row names none."""
    command: str
    what: str
    memory: int


def rows_in(page):
    """The rows of the page's table, one for each command of a row."""
    part = page.partition('\n## Time and memory\n')[2].partition('\n## ')[0]
    for line in re.findall(r'^\| `.*$', part, re.MULTILINE):
        commands, what, _, memory = ([cell.strip() for cell in line.split('|')[1:]] + [''] * 4)[:4]
        number = re.fullmatch('([0-9]{1,9}) MiB', memory)
        for command in re.findall('`([a-z]+)`', commands) or [commands]:
            yield Row(command, what, int(number[1]) if number else 0)


def most_of(memory):
    """The most MiB that a run may take where the page names this memory."""
    return memory * MOST + ROUNDING


def row_fault(row, found):
    """What is wrong with a row beside the MiB of each input, or None."""
    if (row.command, row.what) not in found:
        return 'bounds.py has no such input'
    memory = found[row.command, row.what]
    if memory > most_of(row.memory):
        return f'takes {memory:.1f} MiB, and the page says {row.memory}'
    if memory < row.memory * LEAST - ROUNDING:
        return f'takes only {memory:.1f} MiB, and the page says {row.memory}'
    return None


def faults_of(rows, found):
    """What is wrong with the rows of a page, beside the MiB that each input of each command took."""
    if not rows:
        yield 'the page has no rows'
    for row in rows:
        fault = row_fault(row, found)
        if fault:
            yield f'{row.command}, {row.what}: {fault}'
    named = {(row.command, row.what) for row in rows}
    for (command, what), memory in found.items():
        worst = max((row.memory for row in rows if row.command == command), default=None)
        if worst is None:
            yield f'{command}: the page has no row of it'
        elif (command, what) not in named and memory > most_of(worst):
            yield f'{command}, {what}: takes {memory:.1f} MiB, and the page has no row of more than {worst} MiB'


def measures(program):
    """Each input of bounds.py, measured once on the program, two at a time."""
    with tempfile.TemporaryDirectory() as folder, concurrent.futures.ThreadPoolExecutor(2) as pool:
        files = Files(folder)
        begun = [(worst, pool.submit(measured, ['timeout', str(MOST_SECONDS), program] + worst.words, 1)) for inputs in WORST
                 for worst in inputs(files)]
        return [(worst, run.result()) for worst, run in begun]


def main(words):
    if not 1 <= len(words) <= 2:
        raise WrongWords
    program, page = os.path.abspath(words[0]), pathlib.Path(words[1]) if words[1:] else ROOT / 'docs/COMMANDS.md'
    rows = list(rows_in(page.read_text(encoding='utf-8', errors='replace')))
    if not os.access(METER, os.X_OK):
        print(f'costs: skipped, there is no {METER}', file=sys.stderr)
        return 0
    found, faults = {}, []
    for worst, run in measures(program):
        command = worst.words[0]
        print(f'{command}, {worst.what}: {run.seconds:.2f} s, {run.memory:.1f} MiB', flush=True)
        found[command, worst.what] = run.memory
        if run.status not in ANSWERS:
            faults.append(f'{command}, {worst.what}: status {run.status}')
    faults += faults_of(rows, found)
    for fault in faults:
        print(f'costs: {fault}')
    print(f'costs: {len(rows)} rows, {len(found)} inputs, {len(faults)} failed')
    return 1 if faults else 0


if __name__ == '__main__':
    ends(main, __doc__)
