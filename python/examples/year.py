"""A year of a task set at ticks of a millisecond, simulated event by event in seconds.

A sensor is read each minute, a valve is moved each ten minutes, and a log is written each hour. A job of the sensor needs 1 s,
one of the valve 30 s, one of the log 90 s. The first job of the valve and each thousandth after it need 200 s: at 60 s, its low
budget, such a job overruns, and the mode is high until no job is left. Then a pending job of the log is discarded, and the
sensor's releases are dropped.

usage: year.py [DAYS]
       DAYS is how many days are simulated, 365 without it
"""

import sys
from heapq import heappop, heappush
from typing import Dict, List, Tuple

from edfvd import Event, Scheduler, Task

SECOND = 1000
DAY = 24 * 3600 * SECOND
TASKS = [
    Task("sensor", "low", period=60 * SECOND, low=36 * SECOND),
    Task("valve", "high", period=600 * SECOND, low=60 * SECOND, high=360 * SECOND),
    Task("log", "low", period=3600 * SECOND, low=108 * SECOND),
]
PERIODS = {task.name: task.period for task in TASKS}
NEEDS = {"sensor": 1 * SECOND, "valve": 30 * SECOND, "log": 90 * SECOND}


def need(task: str, count: int) -> int:
    """How many ticks the job needs."""
    return 200 * SECOND if task == "valve" and count % 1000 == 1 else NEEDS[task]


def simulate(end: int) -> Tuple[Dict[Tuple[str, str], int], int, int]:
    """How many jobs of each task ended in each way, how many ticks were idle, and how many rows there were, until this tick."""
    counts: Dict[Tuple[str, str], int] = {}
    left: Dict[str, int] = {}
    releases: List[Tuple[int, str]] = [(0, task.name) for task in TASKS]
    now = idle = 0

    def counted(task: str, what: str) -> None:
        counts[task, what] = counts.get((task, what), 0) + 1

    with Scheduler.endless(TASKS) as scheduler:
        while now < end:
            while releases[0][0] == now:
                _, task = heappop(releases)
                heappush(releases, (now + PERIODS[task], task))
                released = scheduler.release(task)
                if released.event is Event.KEPT:
                    left[task] = need(task, released.count)
                else:
                    counted(task, "dropped")
            timer = min(releases[0][0], end)
            while now < timer:
                job = scheduler.next()
                if job is None:
                    scheduler.idle_for(timer - now)
                    idle, now = idle + timer - now, timer
                    break
                ticks = min(job.ticks, left[job.task], timer - now)
                left[job.task] -= ticks
                ended = scheduler.run(job.task, job.count, ticks, done=left[job.task] == 0)
                now += ticks
                if ended.event is Event.DONE:
                    counted(job.task, "done")
                elif ended.event is Event.OVER:
                    counted(job.task, "overran")
                    for name in PERIODS:
                        if scheduler.discarded(name):
                            counted(name, "discarded")
        return counts, idle, scheduler.look().rows


def main(words: List[str]) -> int:
    if len(words) > 1 or not all(word.isascii() and word.isdigit() and 1 <= int(word) <= 10000 for word in words):
        print("usage: " + __doc__.split("usage: ")[1].rstrip(), file=sys.stderr)
        return 2
    days = int(words[0]) if words else 365
    counts, idle, rows = simulate(days * DAY)
    for task in PERIODS:
        said = [f"{count} {what}" for (name, what), count in sorted(counts.items()) if name == task]
        print(f"{task}: {', '.join(said)}")
    print(f"{days * DAY} ticks, {idle} of them idle, {rows} rows")
    return 0


if __name__ == "__main__":
    sys.exit(main(sys.argv[1:]))
