"""Measures what a job of many ticks costs from Python: its release, its run and as many idle ticks, in three calls, or one by one.

The package is the one that Python finds. The nanoseconds are of processor time.

usage: runs.py TICKS JOBS runs|ticks
"""

import pathlib
import sys
import time

sys.path.insert(0, str(pathlib.Path(__file__).resolve().parent.parent / 'tools'))
from usage import WrongWords, ends, numbers


def in_runs(scheduler, ticks, count):
    scheduler.run('a', count, ticks, done=True)
    scheduler.idle_for(ticks)


def in_ticks(scheduler, ticks, count):
    for tick in range(1, ticks + 1):
        scheduler.grant('a')
        scheduler.outcome('a', count, done=tick == ticks)
    for _ in range(ticks):
        scheduler.idle()


def main(words):
    if len(words) != 3 or words[2] not in ('runs', 'ticks'):
        raise WrongWords
    ticks, jobs = numbers(words[:2], 1, 1)
    if not 1 <= ticks < 2**31 or jobs == 0:
        raise WrongWords
    import edfvd
    one = in_runs if words[2] == 'runs' else in_ticks
    with edfvd.Scheduler.endless([edfvd.Task('a', 'low', 2 * ticks, ticks)]) as scheduler:
        begun = time.process_time_ns()
        for _ in range(jobs):
            one(scheduler, ticks, scheduler.release('a').count)
        took = time.process_time_ns() - begun
        print(f'{scheduler.look().ticks} ticks, {took / jobs:.0f} ns a job')
    return 0


if __name__ == '__main__':
    ends(main, __doc__)
