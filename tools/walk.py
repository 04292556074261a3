"""A trace gone through once, row by row, with what a scheduler would know at each row.

The rules are those of model.py, which looks through the whole trace for each row; here what it would find is kept from row
to row, so that the time is in proportion to the records, whatever is pending. explain_check.py compares the two.
"""

import heapq
from typing import NamedTuple, Optional

import rules
from reading import Placed
from rules import DONE, DROPPED, HIGH, IDLE, KEPT, LOW, MORE, OVER, PLAIN, RELEASES, STOP, Job, Run


# ---- Going through ----

# A pending job: when it was released, and how many ticks it has had.
class Waiting(NamedTuple):
    release: int
    used: int


# Where a job left: the boundary, the word for why, and the line.
class Left(NamedTuple):
    boundary: int
    why: str
    line: int


# What is known after the rows so far, which all fit.
class Walk:
    def __init__(self, tasks, rule):
        self.tasks, self.rule = tasks, rule
        self.rows = self.ticks = 0
        self.high_mode = False
        self.releases = {}
        self.waiting = {}
        self.waiting_low = {}  # those of low tasks, which an overrun discards
        self.keys = {False: [], True: []}  # by whether the mode is high: a heap of the jobs by their keys, also of jobs that left
        self.kept = []
        self.left = {}

    def task_of(self, job):
        return rules.task_of(self.tasks, job)

    # How often a task was released, and from which boundary on it may be released again.
    def released(self, number):
        count, last = self.releases.get(number, (0, None))
        return count, 0 if last is None else last + self.tasks[number - 1].period

    # Whether the next release of a task is dropped.
    def drops(self, number):
        return self.high_mode and self.tasks[number - 1].level == LOW

    # The key of a pending job, in parts of a tick, of which the rule's q make one.
    def key(self, job):
        return rules.key(self.rule, self.high_mode, self.task_of(job), self.waiting[job].release)

    # The pending job of the least key, and of equal keys of the lowest task number. Some job is pending.
    def first(self):
        heap = self.keys[self.high_mode]
        while heap[0][1] not in self.waiting:
            heapq.heappop(heap)
        return heap[0][1]

    # The least key of the pending jobs, of which there are some.
    def least(self):
        return self.key(self.first())

    # How a pending job's next tick ends where the job is not done with it.
    def how_of(self, job):
        task, with_this = self.task_of(job), self.waiting[job].used + 1
        if with_this == task.high:
            return STOP
        overruns = task.level == HIGH and self.rule != PLAIN and not self.high_mode
        return OVER if overruns and with_this == task.low else MORE

    # The first part of a row that does not fit, or None. Of a run the first row is asked about.
    def misfit(self, run):
        if run.kind == IDLE:
            return 'idle_pending' if self.waiting else None
        return self.release_misfit(run) if run.kind in RELEASES else self.tick_misfit(run)

    def release_misfit(self, run):
        count, earliest = self.released(run.job.task)
        if self.ticks < earliest:
            return 'too_soon'
        if run.job.count != count + 1:
            return 'wrong_count'
        return 'wrong_kept' if (run.kind == DROPPED) != self.drops(run.job.task) else None

    def tick_misfit(self, run):
        if run.job not in self.waiting:
            return 'not_pending'
        if self.least() < self.key(run.job):
            return 'not_least'
        in_budget = self.waiting[run.job].used + 1 <= self.task_of(run.job).high
        fits = run.kind == DONE and in_budget or run.kind == self.how_of(run.job)
        return None if fits else 'wrong_how'

    # The run cut before the rows with which its job has had one of its budgets. Nothing else changes in a run.
    def pieces(self, run):
        cuts = {0, run.length}
        if run.length > 1 and run.job in self.waiting:
            task, used = self.task_of(run.job), self.waiting[run.job].used
            cuts.update(budget - used - 1 for budget in (task.low, task.high) if 0 < budget - used - 1 < run.length)
        cuts = sorted(cuts)
        return [run._replace(tick=run.tick + cut, length=end - cut) for cut, end in zip(cuts, cuts[1:])]

    # Goes past rows that fit, which stand in this line.
    def go_past(self, run, line):
        self.rows += run.length
        if run.kind in RELEASES:
            self.releases[run.job.task] = run.job.count, self.ticks
            if run.kind == KEPT:
                self.enter(run.job)
            else:
                self.left[run.job] = Left(self.ticks, 'dropped', line)
            return
        self.ticks += run.length
        if run.kind == IDLE:
            self.high_mode = False
            return
        self.waiting[run.job] = self.waiting[run.job]._replace(used=self.waiting[run.job].used + run.length)
        if run.kind in (DONE, STOP):
            self.leave(run.job, 'done' if run.kind == DONE else 'stopped', line)
        if run.kind == OVER:
            self.high_mode = True
            for job in list(self.waiting_low):
                self.leave(job, 'discarded', line)

    def enter(self, job):
        self.waiting[job] = Waiting(self.ticks, 0)
        self.kept.append((job, self.ticks))
        if rules.is_low(self.tasks, job):
            self.waiting_low[job] = True
        for high_mode, heap in self.keys.items():
            heapq.heappush(heap, (rules.key(self.rule, high_mode, self.task_of(job), self.ticks), job))

    def leave(self, job, why, line):
        del self.waiting[job]
        self.waiting_low.pop(job, None)
        self.left[job] = Left(self.ticks, why, line)

    # The late jobs, in the order of their releases: their deadline has come, and they had not left by it.
    def late(self):
        deadlines = [(job, release + self.task_of(job).period) for job, release in self.kept]
        return [job for job, deadline in deadlines if deadline <= self.ticks and not (
            job in self.left and self.left[job].boundary <= deadline)]


# The first row that does not fit: what is known before it, its run from it on, its place in the file, and the part that
# fails.
class Misfit(NamedTuple):
    walk: Walk
    run: Run
    placed: Placed
    why: str


# Takes the walk through a whole trace. Returns the first row that does not fit, or None if all fit.
def go_through(walk, trace) -> Optional[Misfit]:
    for placed in trace:
        for piece in walk.pieces(placed.run):
            why = walk.misfit(piece)
            if why is not None:
                return Misfit(walk, piece, placed, why)
            walk.go_past(piece, placed.line)
    return None


# ---- The one trace of a list of work ----

# The runs of `end` ticks that follow the work. The work is in the order of its releases, and the walk is at its beginning.
def follow(walk, work, end):
    runs, needs, place = [], {}, 0
    while walk.ticks < end:
        while place < len(work) and work[place].release == walk.ticks:
            row, place = work[place], place + 1
            job = Job(row.task, walk.released(row.task)[0] + 1)
            needs[job] = row.need
            runs.append(Run(DROPPED if walk.drops(row.task) else KEPT, walk.ticks, job))
            walk.go_past(runs[-1], 0)
        until = min([end] + [row.release for row in work[place:place + 1]])
        runs.append(next_run(walk, needs, until))
        walk.go_past(runs[-1], 0)
    return runs


# The equal ticks that come next, none of them from this boundary on.
def next_run(walk, needs, until):
    if not walk.waiting:
        return Run(IDLE, walk.ticks, None, until - walk.ticks)
    job = walk.first()
    task, used = walk.task_of(job), walk.waiting[job].used
    more = min(budget for budget in (needs[job], task.low, task.high) if budget > used) - used - 1
    if more > 0:
        return Run(MORE, walk.ticks, job, min(more, until - walk.ticks))
    return Run(DONE if needs[job] == used + 1 else walk.how_of(job), walk.ticks, job)
