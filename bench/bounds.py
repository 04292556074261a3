"""Measures the program on the worst inputs that were found for each command, and writes a table: the least time and the least time of
processors out of some runs, the most memory, and the time of processors beside the plain programs that PLAIN, a folder, has: plain,
demand and accept. It needs GNU time (Debian's package time).

usage: bounds.py PROGRAM PLAIN [RUNS]
"""

import os
import pathlib
import re
import shutil
import subprocess
import sys
import tempfile
from typing import NamedTuple, Optional

sys.path.insert(0, str(pathlib.Path(__file__).resolve().parent.parent / 'tools'))
from usage import WrongWords, ends, numbers

TRACE = 'event,tick,length,task,job,how\n'
MOST_BYTES, MOST_TRACE_BYTES = 16777216, 134217728
PERIODS = [1000, 1250, 2000, 2500, 3125, 4000, 5000, 6250, 10000, 12500, 15625, 20000, 25000, 31250, 50000, 62500, 100000, 500000]


class Worst(NamedTuple):
    """An input of a command: what it is, in the words of COMMANDS.md if its table has it, and the words of the call."""
    what: str
    words: list
    plain: Optional[str] = None  # the plain program, which takes the words after the command, or all of them


# ---- Files ----

def task(name, level, period, low, high=None):
    return f'[[task]]\nname = "{name}"\nlevel = "{level}"\nperiod = {period}\nlow = {low}\n' + (f'high = {high}\n' if high else '')


def with_comments(text):
    """A task file, filled with comments to its last byte."""
    line = '# a comment of forty bytes, as people write\n'
    return text + (line * (MOST_BYTES // len(line) + 1))[:MOST_BYTES - len(text) - 1] + '\n'


def with_zeros(text):
    """A task file with a number that goes on to its last byte."""
    return text.replace('low = 1\n', f'low = 0x{"0" * (MOST_BYTES - len(text) - 3)}1\n', 1)


def long_name(place):
    return f'task_with_a_long_name_of_32_b{place:03}'


def large():
    """128 tasks with long names and large periods."""
    return ''.join(
        task(long_name(place), 'high' if place % 2 else 'low',
             1431655765 if place % 2 else 4294967295, 10000000, 17000000 if place % 2 else None) for place in range(128))


def with_long_names(text):
    """A task file or a trace whose tasks are t0 to t127, with the longest names."""
    return re.sub(r'\bt(\d+)\b', lambda match: long_name(int(match[1])), text)


def crowd(count, period):
    """Tasks that are all released at each of their periods, each for one tick."""
    return ''.join(task(f't{place}', 'low', period, 1) for place in range(count))


def crowd_work(count, period, end):
    return 'task,release,need\n' + ''.join(f't{place},{tick},1\n' for tick in range(0, end - period + 1, period) for place in range(count))


def turns(records):
    """This number of records, of 128 tasks in turn."""
    lines = []
    for place in range(records):
        turn, step = divmod(place, 256)
        tick = 128 * turn
        lines.append(f'release,{tick},,t{step},{turn + 1},kept' if step < 128 else f'tick,{tick + step - 128},1,t{step - 128},{turn + 1},done')
    return TRACE + '\n'.join(lines) + '\n'


def one_by_one(records):
    """A trace of one job, with this number of records: its release, and then each tick in a record of its own."""
    return TRACE + 'release,0,,t0,1,kept\n' + ''.join(f'tick,{tick},1,t0,1,more\n' for tick in range(records - 1))


def filled(text):
    """A trace, filled with empty lines to its last byte."""
    return text + '\n' * (MOST_TRACE_BYTES - len(text))


def quoted(text):
    """A trace with each of its fields in quotes."""
    return '"' + text[:-1].replace(',', '","').replace('\n', '"\n"') + '"\n'


# 2,000,000 records: at each tick 128 releases and a record of the tick. One record is left for the overrun.
PENDING_TICKS = 15503


def all_pending():
    """A trace in which 128 tasks of period 1 release at each tick, and the first job has all ticks: its jobs and those of all others are
    pending when it overruns at the end. Before that they all are late."""
    names = [f't{place}' for place in range(128)]
    ticks = [''.join(f'release,{tick},,{name},{tick + 1},kept\n' for name in names) + f'tick,{tick},1,t0,1,more\n'
             for tick in range(PENDING_TICKS)]
    return TRACE + ''.join(ticks) + f'tick,{PENDING_TICKS},1,t0,1,over\n'


def all_late():
    """High tasks of period 1, of which the first overruns in that trace."""
    return ''.join(task(f't{place}', 'high', 1, PENDING_TICKS + 1, 4000000000) for place in range(128))


def spaced(per, count, end):
    """Tasks for COUNT processors, PER on each, which load it, and jobs one after the other on each: released, served for two ticks, idle.
    """
    period, names = 128, [f't{place:06}' for place in range(per * count)]
    tasks = ''.join(task(name, 'low', period, period // per) for name in names)
    lines, size = ['task,release,need\n'], 18
    for start in range(0, end, period // per):
        for line in (f'{name},{start},2\n' for name in names[start * per // period % per::per]):
            size += len(line)
            if size > MOST_BYTES or len(lines) > 1000000:
                return tasks, ''.join(lines)
            lines.append(line)
    return tasks, ''.join(lines)


def demands(lines):
    return 'task,period,deadline,budget\n' + ''.join(','.join(map(str, line)) + '\n' for line in lines)


class Files:
    """Files in a folder, by their names."""

    def __init__(self, folder):
        self.folder = folder

    def file(self, name, text):
        path = os.path.join(self.folder, name)
        with open(path, 'w', encoding='ascii') as file:
            file.write(text)
        return path


def worst_on_tables(files):
    """Inputs for the commands that read a task file, and perhaps a work file."""
    comments, zeros = files.file('comments', with_comments(large())), files.file('zeros', with_zeros(crowd(1, 128)))
    tasks, work = files.file('crowd', crowd(128, 128)), files.file('work', crowd_work(128, 128, 1000000))
    shared = files.file('shared', crowd(128, 128).replace('low = 1\n', 'low = 16\n'))
    apart, apart_work = (files.file(f'apart{place}', text) for place, text in enumerate(spaced(8, 16, 1000000)))
    names = files.file('names', with_long_names(crowd(128, 128)))
    for words in (['check'], ['stretch'], ['partition', '16']):
        yield Worst('128 tasks, filled to 16 MiB with comments', [words[0], comments] + words[1:])
        yield Worst('a task file of 16 MiB, nearly all of it the digits of one number', [words[0], zeros] + words[1:])
    yield Worst('128 tasks that have the ticks in turn, 1,000,000 ticks', ['run', tasks, work, '1000000'])
    yield Worst('128 tasks that have the ticks in turn, on 16 processors, 1,000,000 ticks', ['runall', shared, work, '1000000', '16'])
    yield Worst('993,431 jobs of two ticks, one after the other on each of 16 processors', ['runall', apart, apart_work, '1000000', '16'])
    yield Worst('32 tasks, 1,000,000 ticks', ['soak', '2', '32', '1000000'])
    yield Worst('128 tasks of period 128, budget 1 and long names, 100,000 ticks', ['live', names, '100000'])
    yield Worst('10,000 sets of 32 tasks', ['accept', '1', '10000', '32'], 'accept')


def worst_on_traces(files):
    """Inputs for the commands that read a trace. Each file is made just before it is read, so that runs go on meanwhile."""
    tasks, letters = files.file('turn_tasks', crowd(128, 128)), files.file('letters', 'a' * MOST_TRACE_BYTES)
    marks = files.file('marks', '"' * MOST_TRACE_BYTES)
    for command in ('judge', 'report', 'migrate', 'chart'):
        yield Worst('128 MiB of `"`, which is no trace', [command, tasks, marks])
        yield Worst('128 MiB of one letter, which is no trace', [command, tasks, letters])
    in_turn = turns(2000000)
    names, full = files.file('turn_names', with_long_names(crowd(128, 128))), files.file('full', in_turn)
    for command in ('judge', 'report', 'migrate'):
        yield Worst('2,000,000 records of 128 tasks in turn', [command, tasks, full], 'plain')
    quotes = files.file('quoted', filled(quoted(in_turn)))
    for command in ('judge', 'report', 'migrate'):
        yield Worst('2,000,000 records with each field in quotes, in 128 MiB', [command, tasks, quotes])
    long_full = files.file('long', filled(with_long_names(in_turn)))
    for command in ('judge', 'report', 'migrate'):
        yield Worst('2,000,000 records of tasks with long names, in 128 MiB', [command, names, long_full])
    late, at_overrun = files.file('late', all_late()), all_pending()
    served = files.file('served', at_overrun.rpartition('tick')[0])
    yield Worst('1,984,384 late jobs, under the scale 1/1', ['judge', late, served, '1', '1'])
    pending = files.file('pending', filled(at_overrun))
    yield Worst('these jobs pending at an overrun, in a trace of 128 MiB', ['judge', late, pending, '1', '1'])
    wide = files.file('wide', with_long_names(crowd(128, 4294967295).replace('low = 1\n', 'low = 3000000\n')))
    drawn = files.file('drawn', filled(with_long_names(one_by_one(2000000))))
    yield Worst('128 tasks, of which one has 1,999,999 ticks in a record each, in 128 MiB', ['chart', wide, drawn])


def worst_on_demands(files):
    """Inputs for `demand`."""
    dense = files.file('dense', demands([(f't{place}', 160, 33 + place, 1) for place in range(127)] + [('long', 500000, 250000, 50000)]))
    past = files.file('past', demands([(long_name(0), 1, 1, 1)] + [(long_name(place), 500000, 500000, 1) for place in range(1, 128)]))
    spread = files.file('spread', demands([
        (f't{place}', PERIODS[place % 18], PERIODS[place % 18] * 9 // 10, PERIODS[place % 18] // 200) for place in range(128)]))
    yield Worst('396,876 jobs in 500,000 ticks', ['demand', dense], 'demand')
    yield Worst('a counterexample of 500,000 ticks, with 127 pending jobs of long names and a release at each tick', ['demand', past], 'demand')
    yield Worst('128 tasks of 18 periods', ['demand', spread], 'demand')


WORST = (worst_on_tables, worst_on_traces, worst_on_demands)


# ---- Measures ----

# Measures a command. Started from here, the system would count this process's own memory as the command's.
METER = '/usr/bin/time'


class Measure(NamedTuple):
    """The least seconds, and seconds of processors, of some runs of a command, its most MiB, and its status."""
    seconds: float
    busy: float
    memory: float
    status: int


def measured(words, runs):
    """Measures a command, whose output is thrown away."""
    found = []
    for _ in range(runs):
        ended = subprocess.run([METER, '-q', '-f', '%e %U %S %M'] + words, stdout=subprocess.DEVNULL, stderr=subprocess.PIPE, text=True)
        seconds, user, system, memory = map(float, ended.stderr.split()[-4:])
        found.append((seconds, user + system, memory / 1024))
    times, busy, memory = zip(*found)
    return Measure(min(times), min(busy), max(memory), ended.returncode)


def beside(worst, plain, runs, busy):
    """How much longer than the plain program, as a word."""
    if worst.plain is None or plain == 'none':
        return ''
    own = worst.words if worst.plain == 'plain' else worst.words[1:]
    least = measured([os.path.join(plain, worst.plain)] + own, runs).busy
    # Below this a ratio is one of starts of processes.
    return f'{busy / least:.2f}' if least > 0.02 else ''


def main(words):
    if len(words) < 2:
        raise WrongWords
    program, plain = os.path.abspath(words[0]), words[1]
    runs, = numbers(words[2:], 3)
    if not os.access(METER, os.X_OK):
        print(f'bounds: there is no {METER}', file=sys.stderr)
        return 1
    print('| command | input | status | time | of processors | memory | times plain Rust |\n|---|---|---|---|---|---|---|')
    for worst_inputs in WORST:
        folder = tempfile.mkdtemp()
        try:
            for worst in worst_inputs(Files(folder)):
                found = measured([program] + worst.words, runs)
                ratio = beside(worst, plain, runs, found.busy)
                print(f'| `{worst.words[0]}` | {worst.what} | {found.status} | {found.seconds:.2f} s | {found.busy:.2f} s '
                      f'| {found.memory:.0f} MiB | {ratio} |', flush=True)
        finally:
            shutil.rmtree(folder, ignore_errors=True)
    return 0


if __name__ == '__main__':
    ends(main, __doc__)
