"""Compares the program with bench/plain.rs on large traces, whole and spoilt by a seed: status and text of `judge`, `report` and
`migrate`. One is what `run` writes, so that a wrong one is found, too: the other program finds it illegal.

usage: second.py PROGRAM PLAIN [CASES [SEED]]
"""

import os
import sys

import with_tools
from cases import Dice, Runner, keep, written
from usage import WrongWords, ends, numbers

COMMANDS = ['judge', 'report', 'migrate']
HEADERS = {1: 'event,tick,task,job,how', 2: 'event,tick,length,task,job,how'}
HOWS = ['more', 'done', 'stop', 'over', 'kept', 'dropped', '', 'Done']


# ---- Sets and work ----

def task_file(tasks):
    """The tasks, each a name, a level, a period, a low and a high budget, as plain.rs reads them."""
    return ''.join(
        f'[[task]]\nname = "{name}"\nlevel = "{level}"\nperiod = {period}\nlow = {low}\n'
        + (f'high = {high}\n' if level == 'high' else '') + '\n' for name, level, period, low, high in tasks)


def work_file(tasks, end, need):
    """A job of each task at every period, which needs what the function says."""
    jobs = sorted((tick, place) for place, task in enumerate(tasks) for tick in range(0, end, task[2]))
    rows = [f'{tasks[place][0]},{tick},{need(tasks[place])}' for tick, place in jobs]
    return '\n'.join(['task,release,need'] + rows) + '\n'


def light(dice):
    """128 tasks of a load of about 1/200 each, whose high jobs overrun now and then, for 100,000 ticks."""
    periods = [1000, 1050, 1120, 1200, 1250, 1400, 1500, 1600, 1680, 1750, 1800, 2000, 2100, 2250, 2400, 2500]
    tasks = []
    for place in range(128):
        period = periods[place // 2 % 16]
        low = (period + 100) // 200
        tasks.append((f't{place}', 'low' if place % 2 else 'high', period, low, low if place % 2 else low * 5 // 2))
    return tasks, 100000, lambda task: dice.one_of(20 * [task[3]] + [1, task[4], task[4], task[4] + 1])


def in_turn(count, rounds):
    """Tasks that are all released at once and have a tick each in turn, the first two of them high, and the trace of some rounds."""
    tasks = [(f't{place}', 'high' if place < 2 else 'low', count, 1, 1) for place in range(count)]
    lines = []
    for turn in range(rounds):
        lines += [f'release,{count * turn},,t{place},{turn + 1},kept' for place in range(count)]
        lines += [f'tick,{count * turn + place},1,t{place},{turn + 1},done' for place in range(count)]
    return task_file(tasks), lines


# ---- Traces ----

def rows_of(lines):
    """The records of version 2 as those of version 1, a row each."""
    for line in lines:
        event, tick, length, *rest = line.split(',')
        for place in range(1 if event == 'release' else int(length)):
            yield ','.join([event, str(int(tick) + place), *rest])


def counted(records):
    """The records with their ticks counted again."""
    due = 0
    for record in records:
        record[1] = str(due)
        if record[0] != 'release':
            due += int(record[2]) if len(record) == 6 and record[2].isdigit() else 1
    return records


def spoilt(lines, dice):
    """The lines with one to three changes in one place, and mostly with their ticks counted again."""
    first = dice.below(len(lines))
    records = [line.split(',') for line in lines]
    for _ in range(dice.one_of([1, 1, 2, 3])):
        place = min(first + dice.below(3), len(records) - 1)
        record, other = records[place], records[dice.below(len(records))]
        change = dice.below(9)
        if change == 0:
            del records[place]
        elif change == 1:
            records.insert(place, list(record))
        elif change == 2:
            records[place], records[place - 1] = records[place - 1], record
        elif change == 3:
            record[-1] = dice.one_of(HOWS)
        elif change == 4 and record[-3]:
            record[-3] = other[-3] or 'nobody'
        elif change == 5 and record[-2].isdigit():
            record[-2] = str(max(0, int(record[-2]) + dice.one_of([-1, 1, 1, 2 ** 32 - 1])))
        elif change == 6 and len(record) == 6 and record[2].isdigit():
            record[2] = str(max(0, int(record[2]) + dice.one_of([-1, 1, 2, 1000, 100000000])))
        elif change == 7:
            record[dice.below(len(record))] = dice.one_of(['', 'x', '00000000001', '4294967296', '-1', '0'])
        elif change == 8 and place > 0:
            del records[place:]
    is_counted = dice.below(4) > 0
    return [','.join(record) for record in (counted(records) if is_counted else records)]


class Pair:
    """Both programs, on the same files."""

    def __init__(self, program, plain):
        self.program, self.plain = Runner(program, seconds=600), Runner(plain, seconds=600)
        self.calls = self.failed = 0
        self.answers = {}

    def compare(self, what, tasks, lines, version):
        """Their answers by each command."""
        contents = [tasks.encode(), ('\n'.join([HEADERS[version], *lines]) + '\n').encode()]
        names = written(self.program.folder, contents)
        for command in COMMANDS:
            mine, other = self.program.call(command, names, []), self.plain.call(command, names, [])
            self.calls += 1
            told = mine[1].split(b'\n')[0].decode() if mine[0] else 'status 0'
            kind = told.split()[-1] if told.startswith('illegal') else ' '.join(told.split(': ')[-1].split())
            self.answers[kind] = self.answers.get(kind, 0) + 1
            if mine != other:
                self.failed += 1
                print(f'{what}, {keep(self.calls, command, contents, [])}: {mine[0]}, {mine[1][:100]}; plain.rs {other[0]}, {other[1][:100]}')

    def traced(self, tasks, end, need):
        """The task file, and the trace of the work by `run`."""
        text = task_file(tasks)
        status, trace, _ = self.program.run('run', [text.encode(), work_file(tasks, end, need).encode()], [str(end)])
        lines = trace.decode().splitlines()[1:]
        if status or not lines:
            sys.exit(f'second: the run of {len(tasks)} tasks has status {status}')
        kinds = [line.rsplit(',', 1)[1] for line in lines]
        print(f'run: {len(tasks)} tasks, {len(lines)} records, ' + ', '.join(
            f'{kinds.count(kind)} {kind}' for kind in sorted(set(kinds)) if kind))
        return text, lines


def main(words):
    if len(words) < 2:
        raise WrongWords
    pair = Pair(*map(os.path.abspath, words[:2]))
    count, seed = numbers(words[2:], 20, 1)
    dice = Dice(seed)
    traces = [pair.traced(*light(dice)), in_turn(128, 781), in_turn(8, 62500)]
    for tasks, lines in traces:
        pair.compare('a whole trace', tasks, lines, 2)
    rows = [(tasks, list(rows_of(lines))) for tasks, lines in traces]
    for tasks, lines in rows:
        pair.compare('a whole trace by rows', tasks, lines, 1)
    for length in (99999999, 100000000, 100000001):
        pair.compare('an idle run', traces[0][0], [f'idle,0,{length},,,'], 2)
    for number in range(count):
        # The million records are spoilt more seldom, as each takes a second.
        which = dice.one_of([0, 0, 0, 0, 0, 0, 0, 1, 1, 2])
        tasks, lines = dice.one_of([traces, traces, rows])[which]
        version = 2 if lines is traces[which][1] else 1
        pair.compare(f'spoilt trace {number}', tasks, spoilt(lines, dice), version)
    print(', '.join(f'{times} with "{kind}"' for kind, times in sorted(pair.answers.items())))
    print(f'second: seed {seed}, {pair.calls} calls of both, {pair.failed} differ')
    return 1 if pair.failed else 0


if __name__ == '__main__':
    ends(main, __doc__)
