"""Writes random questions with the program's answers, as JSON on standard output: the examples, random task files, right and wrong ones,
with work for them, and traces, some of them damaged.

usage: cases.py PROGRAM COUNT TRACES SEED
"""

import base64
import json
import os
import pathlib
import random
import subprocess
import sys
import tempfile

ROOT = pathlib.Path(__file__).resolve().parent.parent.parent
sys.path.insert(0, str(ROOT / 'tools'))
from usage import WrongWords, ends, whole_number  # noqa: E402

EXAMPLES = ROOT / 'examples'


def task_file(chance):
    """A random task file; one in five has a fault."""
    count = chance.choice([1, 2, 3, 5, 8, 20])
    lines, names = [], []
    if chance.random() < 0.2:
        q = chance.randint(1, 9)
        lines += ['version = 2', f'scale = [{chance.randint(1, q)}, {q}]']
    for number in range(count):
        name = f't{number}'
        period = chance.choice([5, 8, 10, 20, 25, 40, 50, 100, 1000, 99991])
        level = chance.choice(['low', 'high'])
        low = max(1, int(period * chance.random() * 1.4 / count))
        lines += ['[[task]]', f'name = "{name}"', f'level = "{level}"', f'period = {period}', f'low = {low}']
        if level == 'high':
            lines.append(f'high = {low + chance.randint(0, max(1, period // count))}')
        names.append((name, period, low))
    if chance.random() < 0.2:
        at = chance.randrange(len(lines))
        lines[at] = chance.choice(['', 'x = 1', '[[task]]', lines[at] + '0' * 10, 'name = "é"', '"', lines[at - 1], 'period = 0', 'low = 1.5'])
    return '\n'.join(lines) + '\n', names


def work_file(chance, names, ticks):
    jobs = []
    for name, period, low in names:
        at = chance.randint(0, 5)
        while at < ticks and len(jobs) < 3000:
            jobs.append((at, name, max(1, low + chance.choice([0, 0, 0, 1, 3, -1]))))
            at += period + chance.choice([0, 0, 1, 5])
    if jobs and chance.random() < 0.1:
        jobs.append((chance.randint(0, 5), chance.choice(['t0', 'nobody']), chance.randint(0, 2)))
    else:
        jobs.sort()
    return 'task,release,need\n' + ''.join(f'{name},{at},{need}\n' for at, name, need in jobs)


def damaged(chance, trace):
    lines = trace.splitlines()
    if len(lines) < 3:
        return trace
    for _ in range(chance.randint(1, 2)):
        at = chance.randrange(1, len(lines))
        fields = lines[at].split(',')
        kind = chance.randrange(5)
        if kind == 0:
            del lines[at]
        elif kind == 1:
            lines.insert(at, lines[at])
        elif kind == 2:
            place = chance.randrange(len(fields))
            fields[place] = chance.choice(['0', '1', 'more', 'done', 'over', 'stop', 'kept', 'dropped', '', 't0', '99999999999'])
            lines[at] = ','.join(fields)
        elif kind == 3 and at + 1 < len(lines):
            lines[at], lines[at + 1] = lines[at + 1], lines[at]
        else:
            fields[1] = str(int(fields[1] or 0) + 1) if fields[1].isdigit() else '1'
            lines[at] = ','.join(fields)
        if len(lines) < 3:
            break
    return '\n'.join(lines) + '\n'


class Program:
    def __init__(self, path, folder):
        self.path, self.folder = path, pathlib.Path(folder)

    def answer(self, words, first, second):
        (self.folder / '1').write_bytes(first)
        (self.folder / '2').write_bytes(second)
        done = subprocess.run([self.path, *words], cwd=self.folder, stdout=subprocess.PIPE, check=False)
        return done.returncode, done.stdout


def fixed_questions():
    for tasks in sorted(EXAMPLES.glob('*/*.toml')):
        yield ['check', '1'], tasks.read_bytes(), b''
        yield ['stretch', '1'], tasks.read_bytes(), b''
    for demands in sorted(EXAMPLES.glob('demand/*.csv')):
        yield ['demand', '1'], demands.read_bytes(), b''
    for words in [], ['help'], ['accept', '7', '50', '8'], ['a', 'b', 'c', 'd', 'e', 'f'], ['check', '1', '2']:
        yield words, b'', b''
    yield ['check', '1'], b'\xff\xfe', b''
    yield ['check', '1'], b'', b''
    # The reader of task files calls itself for each level, up to its limit.
    for depth in 79, 80, 81, 5000:
        yield ['check', '1'], b'x = ' + b'[' * depth + b']' * depth, b''
    yield ['check', '1'], b'x = "' + b'y' * 3000000 + b'"', b''
    yield ['check', '1'], b'#' * 16777217, b''


def random_questions(program, count, traces, chance):
    made = 0
    for _ in range(count):
        text, names = task_file(chance)
        ticks = chance.choice([1, 12, 100, 1000])
        work, tasks = work_file(chance, names, ticks).encode(), text.encode()
        yield ['check', '1'], tasks, b''
        yield ['run', '1', '2', str(ticks)], tasks, work
        yield ['stretch', '1'], tasks, b''
        yield ['partition', '1', str(chance.randint(1, 4))], tasks, b''
        status, trace = program.answer(['run', '1', '2', str(ticks)], tasks, work) if made < traces else (1, b'')
        if status == 0:
            made += 1
            given = damaged(chance, trace.decode()).encode() if made % 3 else trace
            for word in 'judge', 'chart', 'report', 'migrate':
                yield [word, '1', '2'], tasks, given
            yield ['judge', '1', '2', '1', '1'], tasks, given
    if made < traces:
        raise SystemExit(f'cases.py: only {made} traces were made of {count} task files')


def coded(content):
    return base64.b64encode(content).decode()


def main(words):
    if len(words) != 4:
        raise WrongWords
    count, traces, seed = (whole_number(word) for word in words[1:])
    with tempfile.TemporaryDirectory() as folder:
        program, cases = Program(os.path.abspath(words[0]), folder), []
        for asked, first, second in [*fixed_questions(), *random_questions(program, count, traces, random.Random(seed))]:
            status, text = program.answer(asked, first, second)
            cases.append([asked, coded(first), coded(second), status, coded(text)])
    json.dump(cases, sys.stdout)
    return 0


if __name__ == '__main__':
    ends(main, __doc__)
