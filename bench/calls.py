"""Measures the calls of the Python package, in microseconds of processor time: the least of 20 runs of each.

The package is the one that Python finds. So two versions are compared by two runs in turn, each with its own PYTHONPATH.

usage: calls.py
"""

import pathlib
import sys
import time

sys.path.insert(0, str(pathlib.Path(__file__).resolve().parent.parent / 'tools'))
from usage import WrongWords, ends

ROWS = 50_000
RUNS = 20


def measured(what, call, count, make=None):
    """Prints how long one of `count` elements takes, of which each call of the function handles all.

    If there is a function that makes what the call takes, its own time is left out.
    """
    least = float('inf')
    for _ in range(RUNS):
        given = [] if make is None else [make()]
        begin = time.process_time_ns()
        call(*given)
        least = min(least, (time.process_time_ns() - begin) / count)
    print(f'{what:38} {least / 1000:9.3f}')


def random_like_set(edfvd, count):
    """A set of `count` tasks, every second one high."""
    return [
        edfvd.Task(f't{n}', 'high', 10_000, 10_000 // (3 * count), 10_000 // (2 * count)) if n % 2 else
        edfvd.Task(f't{n}', 'low', 10_000, 10_000 // (3 * count)) for n in range(count)
    ]


def rows_in_turn(edfvd, tasks):
    """A legal schedule: each task releases a job and runs it for one tick, one task after the other."""
    rows, count = [], 0
    while len(rows) < ROWS:
        count += 1
        rows += [edfvd.Row(edfvd.Event.KEPT, task.name, count) for task in tasks]
        rows += [edfvd.Row(edfvd.Event.DONE, task.name, count) for task in tasks]
    return rows[:ROWS]


def measure_arrays(edfvd, tasks, rows):
    """Measures the calls that take arrays, of as many rows and half as many sets of 8 tasks."""
    from edfvd._library import CRow, CTask
    numbers = {task.name: number for number, task in enumerate(tasks, 1)}
    array = (CRow * ROWS)(*[(row.event, numbers[row.task], row.count) for row in rows])
    measured('a row judged, of an array', lambda: edfvd.judge(tasks, array), ROWS)

    def observed():
        with edfvd.Monitor(tasks) as monitor:
            monitor.observe_all(array)

    measured('a row observed, of an array', observed, ROWS)
    count, one = ROWS // 2, [(0, 10_000, 416, 416), (1, 10_000, 416, 625)] * 4
    sets, offsets = (CTask * (8 * count))(*(one * count)), range(0, 8 * count + 1, 8)
    lists = [random_like_set(edfvd, 8) for _ in range(1_000)]
    measured('a set of 8 tasks checked, of a list', lambda: edfvd.check_many(lists), 1_000)
    measured('a set of 8 tasks checked, of an array', lambda: edfvd.check_many(sets, offsets), count)


def main(words):
    if words:
        raise WrongWords
    import edfvd
    for count in (2, 8, 32, 128):
        tasks, times = random_like_set(edfvd, count), 4_000 // count
        measured(f'check of {count} tasks', lambda: [edfvd.check(tasks) for _ in range(times)], times)
        measured(
            f'check of {count} new tasks', lambda sets: [edfvd.check(tasks) for tasks in sets], times,
            lambda: [random_like_set(edfvd, count) for _ in range(times)],
        )
    tasks = [edfvd.Task(f't{n}', 'low', 8, 1) for n in range(8)]
    rows = rows_in_turn(edfvd, tasks)

    def observed():
        with edfvd.Monitor(tasks) as monitor:
            for row in rows:
                monitor.observe(row)

    measured('a row observed', observed, ROWS)
    measured('a row judged', lambda: edfvd.judge(tasks, rows), ROWS)
    if hasattr(edfvd, 'check_many'):
        measure_arrays(edfvd, tasks, rows)
    return 0


if __name__ == '__main__':
    ends(main, __doc__)
