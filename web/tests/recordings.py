"""Writes random recordings in CSV, right and wrong ones, with what tools/record/sched.py makes of each, as JSON on standard output.

usage: recordings.py COUNT SEED
"""

import json
import pathlib
import random
import subprocess
import sys
import tempfile

ROOT = pathlib.Path(__file__).resolve().parent.parent.parent
sys.path.insert(0, str(ROOT / 'tools'))
from usage import WrongWords, ends, whole_number  # noqa: E402

SETS = [
    [('ctl', 'high', 10, 2, 6), ('log', 'low', 10, 5, 0)],
    [('a', 'high', 8, 1, 5), ('b', 'low', 6, 2, 0), ('c', 'high', 12, 3, 3)],
    [('x', 'low', 5, 2, 0)],
]


def task_file(tasks):
    return ''.join(f'[[task]]\nname = "{name}"\nlevel = "{level}"\nperiod = {period}\nlow = {low}\n' + (f'high = {high}\n' if level == 'high' else '')
                   for name, level, period, low, high in tasks)


def schedule(chance, tasks, ticks):
    """Events of a schedule with some jitter: times in thousandths, the word and the task."""
    events, pending, running = [], {}, None
    for boundary in range(ticks):
        time = boundary * 1000 + chance.choice([0, 0, 0, 30, 400, 499])
        for name, _, period, low, high in tasks:
            if boundary % period == 0:
                dropped = chance.random() < 0.08
                events.append((time, 'drop' if dropped else 'release', name))
                if not dropped:
                    pending[name] = chance.randint(1, max(low, high) + 1)
        now = next(iter(pending), None) if chance.random() < 0.8 else (chance.choice(list(pending)) if pending else None)
        if now != running or boundary == 0 or chance.random() < 0.1:
            if chance.random() < 0.3:
                events.append((time, 'run', '-'))
                time += chance.choice([1, 80, 300])
            events.append((time, 'run', now or '.'))
            running = now
        if now:
            pending[now] -= 1
            if pending[now] <= 0:
                del pending[now]
                events.append((boundary * 1000 + chance.choice([700, 900, 999, 1000]), 'end', now))
    events.sort(key=lambda event: event[0])
    if chance.random() < 0.5:
        events.append((ticks * 1000 + chance.choice([0, 200]), 'finish', ''))
    else:
        events.append((ticks * 1000 + 10, 'run', '.'))
    return events


def damaged(chance, events):
    place = chance.randrange(len(events))
    time, word, name = events[place]
    events[place] = chance.choice([(time - 5000, word, name), (time, 'sleep', name), (time, word, 'nobody'), (time, 'end', name), (time, 'run', name)])
    if chance.random() < 0.3:
        del events[chance.randrange(len(events))]
    return events


def text_of(chance, events, tick):
    rows = []
    for time, word, name in events:
        time = time * tick / 1000 + 4000
        rows.append([str(int(time)) if time == int(time) and chance.random() < 0.7 else f'{time:.3f}', word, name])
    if chance.random() < 0.1:
        chance.choice(rows)[0] = chance.choice(['', '-1', '1e3', ' 7', '9' * 20, '9' * 21, '1.', 'x'])
    ending = chance.choice(['\n', '\n', '\r\n'])
    quoted = chance.random() < 0.2
    lines = [','.join(f'"{field}"' if quoted else field for field in row) for row in [['time', 'event', 'task'], *rows]]
    if chance.random() < 0.1:
        lines.insert(chance.randrange(1, len(lines)), '')
    return ending.join(lines) + ending


def main(words):
    if len(words) != 2:
        raise WrongWords
    count, seed = (whole_number(word) for word in words)
    chance, cases = random.Random(seed), []
    with tempfile.TemporaryDirectory() as folder:
        tasks_file, events_file = pathlib.Path(folder, 'tasks.toml'), pathlib.Path(folder, 'events.csv')
        for number in range(count):
            tasks = chance.choice(SETS)
            events = schedule(chance, tasks, chance.choice([0, 3, 12, 60]) if number % 20 == 0 else chance.choice([12, 40, 100]))
            if events and chance.random() < 0.25:
                events = damaged(chance, events)
            tick = chance.choice([1000, 500, 1500])
            text = text_of(chance, events, tick)
            tasks_file.write_text(task_file(tasks))
            events_file.write_text(text, newline='')
            done = subprocess.run([sys.executable, '-B', ROOT / 'tools/record/sched.py', tasks_file, events_file, str(tick)], stdout=subprocess.PIPE,
                                  stderr=subprocess.PIPE, text=True, check=False)
            cases.append({'tasks': task_file(tasks), 'text': text, 'tick': tick * 1000, 'status': done.returncode, 'trace': done.stdout, 'says': done.stderr.strip()})
    json.dump(cases, sys.stdout)
    return 0


if __name__ == '__main__':
    ends(main, __doc__)
