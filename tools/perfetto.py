"""Writes a trace as Chrome trace events, for a viewer that zooms: https://ui.perfetto.dev opens the file.

Each task has a lane, in which its jobs run and its releases, overruns and ends are marked; the mode is a counter. A tick is
shown as a microsecond. The trace may be of either version, and is taken as it is: `judge` says whether it is legal.

usage: perfetto.py TASKS TRACE > FILE.json
"""

import json
import sys

from reading import or_refused, runs_in, tasks_in
from rules import DONE, EVENTS, IDLE, OVER, RELEASES, STOP, named, task_of
from usage import WrongWords, ends


# The lanes' names, in the order of the tasks.
def lanes(tasks):
    for number, task in enumerate(tasks, 1):
        named = {'ph': 'M', 'pid': 1, 'tid': number}
        yield dict(named, name='thread_name', args={'name': f'{task.name} ({task.level})'})
        yield dict(named, name='thread_sort_index', args={'sort_index': number})


def mark(name, tick, job):
    return {'ph': 'i', 's': 't', 'pid': 1, 'tid': job.task, 'ts': tick, 'name': f'{name} {job.count}'}


def mode(high, tick):
    return {'ph': 'C', 'pid': 1, 'ts': tick, 'name': 'high mode', 'args': {'high': int(high)}}


# The stretches in which a job runs without a break, whatever stands in one record.
def stretches(runs):
    last = None
    for run in runs:
        if EVENTS[run.kind] != 'tick':
            continue
        if last and last[0] == run.job and last[1] + last[2] == run.tick:
            last[2] += run.length
        else:
            if last:
                yield last
            last = [run.job, run.tick, run.length]
    if last:
        yield last


# The marks of a run, and the change of the mode with it.
def marks(run, high_mode):
    end = run.tick + run.length
    if run.kind in RELEASES:
        yield mark(f'release, {run.kind}', run.tick, run.job)
    elif run.kind in (DONE, STOP, OVER):
        yield mark(run.kind, end, run.job)
    if run.kind == OVER:
        yield mode(True, end)
    if run.kind == IDLE and high_mode:
        yield mode(False, run.tick + 1)


def events(tasks, runs):
    yield from lanes(tasks)
    yield mode(False, 0)
    for job, tick, length in stretches(runs):
        name = named(task_of(tasks, job), job)
        yield {'ph': 'X', 'pid': 1, 'tid': job.task, 'ts': tick, 'dur': length, 'name': name}
    high_mode = False
    for run in runs:
        yield from marks(run, high_mode)
        high_mode = run.kind == OVER or high_mode and run.kind != IDLE


def main(words):
    if len(words) != 2:
        raise WrongWords
    tasks = tasks_in(words[0])
    runs = runs_in(tasks, words[1])
    for number, event in enumerate(events(tasks, runs)):
        print('{\n"traceEvents": [' if number == 0 else ',')
        print(json.dumps(event, indent=0), end='')
    print('\n],\n"displayTimeUnit": "ns"\n}')
    print('open the file at https://ui.perfetto.dev, by "Open trace file"', file=sys.stderr)
    return 0


if __name__ == '__main__':
    ends(or_refused(main), __doc__)
