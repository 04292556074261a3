"""What the tools know of EDF-VD: tasks, jobs and the rows of a trace, the test of a set, the keys of jobs, and the text of a trace.

model.py, with which the program is compared, says this a second time on its own; explain_check.py compares the two.
"""

import math
from fractions import Fraction
from typing import NamedTuple, Optional

MOST = 4_294_967_295  # of a number in a file
MOST_PERIODS = 2 ** 60  # of the hyperperiod
MOST_TASKS, MOST_JOBS, MOST_ROWS, MOST_TICKS = 128, 1_000_000, 2_000_000, 100_000_000

LOW, HIGH = 'low', 'high'


class Task(NamedTuple):
    """A task; its period and budgets are in ticks. The high budget of a low task is its low one."""
    name: str
    level: str
    period: int
    low: int
    high: int


class Scale(NamedTuple):
    """A scale p/q in lowest terms, which a set may have of its own."""
    p: int
    q: int


class TaskSet(NamedTuple):
    tasks: list
    scale: Optional[Scale] = None


class Job(NamedTuple):
    """The number of a task and the number of the job among its releases, both from 1."""
    task: int
    count: int


class Work(NamedTuple):
    """A row of a work file: a task's number, the boundary of a release, and how many ticks this job needs."""
    task: int
    release: int
    need: int


KEPT, DROPPED = RELEASES = ('kept', 'dropped')
MORE, DONE, STOP, OVER = TICKS = ('more', 'done', 'stop', 'over')
IDLE = 'idle'
EVENTS = {KEPT: 'release', DROPPED: 'release', MORE: 'tick', DONE: 'tick', STOP: 'tick', OVER: 'tick', IDLE: 'idle'}


class Run(NamedTuple):
    """Equal rows one after the other: their kind, the tick of the first, their job (None of idle rows), how many they are."""
    kind: str
    tick: int
    job: Optional[Job]
    length: int = 1


def task_of(tasks, job):
    """The task of a job."""
    return tasks[job.task - 1]


def is_low(tasks, job):
    """Whether a job is one of a low task."""
    return task_of(tasks, job).level == LOW


# ---- The test ----

class Rule(NamedTuple):
    """A rule: EDF on the deadlines, with 1 for p and q, or EDF-VD with the scale p/q."""
    name: str
    p: int
    q: int


PLAIN = Rule('plain', 1, 1)


def virtual(p, q):
    """EDF-VD with the scale p/q."""
    return Rule('virtual', p, q)


def loads(tasks):
    """The three loads of the test: U_LL, U_HL and U_HH."""
    def load(level, budget):
        return sum((Fraction(budget(task), task.period) for task in tasks if task.level == level), Fraction(0))
    return load(LOW, lambda task: task.low), load(HIGH, lambda task: task.low), load(HIGH, lambda task: task.high)


def published_rule(tasks):
    """The rule of the published test, or None: EDF where that is enough, and else EDF-VD with the least scale."""
    low_low, high_low, high_high = loads(tasks)
    if low_low + high_high <= 1:
        return PLAIN
    if low_low >= 1:
        return None
    scale = high_low / (1 - low_low)
    return virtual(scale.numerator, scale.denominator) if scale * low_low + high_high <= 1 else None


def is_held(tasks, scale):
    """Whether EDF-VD with this scale, of at most 1, keeps all deadlines: in low mode and after a switch."""
    low_low, high_low, high_high = loads(tasks)
    share = Fraction(scale.p, scale.q)
    return low_low + high_low / share <= 1 and share * low_low + high_high <= 1


def rule_of(task_set):
    """The rule of the test of a set, or None: that of the set's scale where this holds, and else the published one."""
    tasks, scale = task_set
    return virtual(*scale) if scale is not None and is_held(tasks, scale) else published_rule(tasks)


def first_out_of_range(tasks):
    """The number of the first task with which the hyperperiod is more than it may be, or None."""
    multiple = 1
    for number, task in enumerate(tasks, 1):
        multiple = math.lcm(multiple, task.period)
        if multiple > MOST_PERIODS:
            return number
    return None


def key(rule, high_mode, task, release):
    """The key of a job in parts of a tick, q to a tick: its deadline, which of a high job in low mode is the scaled one."""
    is_scaled = rule != PLAIN and not high_mode and task.level == HIGH
    return rule.q * release + (rule.p if is_scaled else rule.q) * task.period


# ---- Texts ----

# The header of each version of a trace. A record of version 1 is a row, and one of version 2 is a run.
ROWS_HEADER, RUNS_HEADER = HEADERS = (
    ['event', 'tick', 'task', 'job', 'how'], ['event', 'tick', 'length', 'task', 'job', 'how'])


def fields_of(tasks, run):
    """The six fields of a run."""
    length = '' if run.kind in RELEASES else str(run.length)
    if run.kind == IDLE:
        return [IDLE, str(run.tick), length, '', '', '']
    return [EVENTS[run.kind], str(run.tick), length, task_of(tasks, run.job).name, str(run.job.count), run.kind]


def joined(runs):
    """The runs in order, where neighbours that have equal rows are one."""
    last = None
    for run in runs:
        if last is not None and (last.kind, last.job) == (run.kind, run.job) and run.kind in (MORE, IDLE):
            last = last._replace(length=last.length + run.length)
            continue
        if last is not None:
            yield last
        last = run
    if last is not None:
        yield last


def trace_lines(tasks, runs):
    """The lines of a trace of version 2 with as few records as can be."""
    yield ','.join(RUNS_HEADER)
    for run in joined(runs):
        yield ','.join(fields_of(tasks, run))


def named(task, job):
    """A job by its task's name."""
    return f'{task.name} {job.count}'


def task_table(task):
    """The table of a task in a task file."""
    high = f'high = {task.high}\n' if task.level == HIGH else ''
    return f'[[task]]\nname = "{task.name}"\nlevel = "{task.level}"\nperiod = {task.period}\nlow = {task.low}\n{high}'
