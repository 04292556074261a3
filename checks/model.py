"""EDF-VD and the program's answers, written from the rules alone: plain, slow, and without a line of the program.

Each definition looks through a whole list: that of the tasks, of the work, or of a trace's rows, in which
consecutive equal ticks are one entry. Numbers are whole numbers and fractions of them, so nothing is rounded. The rules are
those of docs/RULES.md, FORMATS.md, MISTAKES.md and COMMANDS.md.

Left out are TOML as text (a task file is the tree that the text stands for), records with quotes, carriage returns or a
byte order mark, files that are too long or cannot be read, and running out of memory.

usage: model.py
       works out the examples at the end of this file and compares them with what is written there
"""

import math
import pathlib
import re
from fractions import Fraction
from itertools import islice
from typing import NamedTuple, Optional

import with_tools
from usage import ends, numbers

# ---- Tasks, rules, rows ----

LOW, HIGH = 'low', 'high'


# A task. The own budget of its jobs is `high`, which of a low task is its low budget.
class Task(NamedTuple):
    name: str
    level: str
    period: int
    low: int
    high: int


# A scale p/q in lowest terms, by which a user wants the deadlines of high tasks scaled.
class Scale(NamedTuple):
    p: int
    q: int


# A set: its tasks, and its scale or None. Where only its tasks matter, a definition speaks of these.
class TaskSet(NamedTuple):
    tasks: list
    scale: Optional[Scale] = None


# A job: the number of its task, from 1, and its number among the releases of that task, from 1.
class Job(NamedTuple):
    task: int
    count: int


# A rule: EDF on the deadlines, with 1 for p and q, or EDF-VD with the scale p/q.
class Rule(NamedTuple):
    name: str
    p: int
    q: int


PLAIN = Rule('plain', 1, 1)


# EDF-VD with the scale p/q.
def virtual(p, q):
    return Rule('virtual', p, q)


# The kinds of rows, and the event of each.
KEPT, DROPPED = RELEASES = ('kept', 'dropped')
MORE, DONE, STOP, OVER = TICKS = ('more', 'done', 'stop', 'over')
IDLE = 'idle'
EVENTS = {KEPT: 'release', DROPPED: 'release', MORE: 'tick', DONE: 'tick', STOP: 'tick', OVER: 'tick', IDLE: 'idle'}


# A row of a trace, or several equal rows one after the other: their kind, the number of ticks (idle ones too) before the
# first of them, their job (None for idle rows), and how many they are. Several are idle ticks, or ticks of a job with more
# to do.
class Run(NamedTuple):
    kind: str
    tick: int
    job: Optional[Job]
    length: int = 1


# Whether two consecutive runs have equal rows, of a kind that may be joined.
def joins(first, second):
    return (first.kind, first.job) == (second.kind, second.job) and first.kind in (MORE, IDLE)


# The rows of runs, each by itself.
def rows_of(runs):
    return [run._replace(tick=run.tick + past, length=1) for run in runs for past in range(run.length)]


# A trace: its rows as runs, as few as they can be. Those of a kind, and the releases and the ticks of a job, are listed
# a second time, only to be found without a search.
class Trace:
    def __init__(self, runs=()):
        self.runs = []
        self.of_kind = {kind: [] for kind in EVENTS}
        self.of_job = {}
        for run in runs:
            self.add(run)

    def add(self, run):
        places = [self.runs, self.of_kind[run.kind], self.of_job.setdefault((EVENTS[run.kind], run.job), [])]
        if self.runs and joins(self.runs[-1], run):
            run = self.runs[-1]._replace(length=self.runs[-1].length + run.length)
            for place in places:
                place.pop()
        for place in places:
            place.append(run)

    # The runs of some kinds, kind by kind.
    def of(self, *kinds):
        return [run for kind in kinds for run in self.of_kind[kind]]

    # How many rows of some kinds there are.
    def count(self, *kinds):
        return sum(run.length for run in self.of(*kinds))

    # The tick of the last run of a kind, or -1 where there is none.
    def last(self, kind):
        return self.of_kind[kind][-1].tick if self.of_kind[kind] else -1


# Each run, after the trace of those before it.
def with_before(runs):
    before = Trace()
    for run in runs:
        yield before, run
        before.add(run)


# A job's task.
def task_of(tasks, job):
    return tasks[job.task - 1]


# Whether a job is one of a low task.
def is_low(tasks, job):
    return task_of(tasks, job).level == LOW


# ---- Loads and the test ----

# The sum of some budgets over their periods.
def load(shares):
    multiple = math.lcm(*[period for _, period in shares])
    return Fraction(sum(budget * (multiple // period) for budget, period in shares), multiple)


# The utilisations: low budgets of low tasks, low budgets of high tasks, high budgets of high tasks.
def loads(tasks):
    low_tasks, high_tasks = ([task for task in tasks if task.level == level] for level in (LOW, HIGH))
    return (
        load([(task.low, task.period) for task in low_tasks]), load([(task.low, task.period) for task in high_tasks]),
        load([(task.high, task.period) for task in high_tasks]))


# The number of the first task whose period takes the least common multiple of the periods so far past 2^60, or None.
def out_of_range(tasks):
    periods = [task.period for task in tasks]
    return next((number for number in range(1, len(tasks) + 1) if math.lcm(*periods[:number]) > 2 ** 60), None)


# The rule of the published test, or None: plain is tried first, then EDF-VD with its scale.
def published(tasks):
    low_low, high_low, high_high = loads(tasks)
    if low_low + high_high <= 1:
        return PLAIN
    if low_low < 1:
        scale = high_low / (1 - low_low)
        if scale * low_low + high_high <= 1:
            return virtual(scale.numerator, scale.denominator)
    return None


# Whether a rule holds for the tasks.
def holds(tasks, rule):
    low_low, high_low, high_high = loads(tasks)
    p, q = rule.p, rule.q
    if rule == PLAIN:
        return low_low + high_high <= 1
    return 1 <= p <= q and p * low_low + q * high_low <= p and p * low_low + q * high_high <= q


# Whether a set has a scale, and one that holds for its tasks.
def has_scale_that_holds(task_set):
    return task_set.scale is not None and holds(task_set.tasks, virtual(*task_set.scale))


# The rule of the test of a set, or None: EDF-VD with the set's scale where that holds, and else what is published.
def test(task_set):
    return virtual(*task_set.scale) if has_scale_that_holds(task_set) else published(task_set.tasks)


# ---- What a trace says so far ----

# How many ticks there are, idle ones among them.
def ticks(trace):
    if not trace.runs:
        return 0
    last = trace.runs[-1]
    return last.tick + (0 if last.kind in RELEASES else last.length)


# The boundary at which a job was released.
def release_time(trace, job):
    return trace.of_job['release', job][0].tick


# Whether an overrun stands after a release row. What stands after it has its tick or a later one.
def overrun_since(trace, release):
    return any(over.tick >= release.tick for over in trace.of(OVER))


# Whether the mode is high: there is an overrun with no idle tick after it.
def is_high_mode(rule, trace):
    return rule != PLAIN and trace.last(OVER) > trace.last(IDLE)


# The jobs that are pending, in the order of their releases: kept, not ended, and if low with no overrun since.
def pending(tasks, trace):
    ended = {row.job for row in trace.of(DONE, STOP)}
    return [row.job for row in trace.of(KEPT)
            if row.job not in ended and not (is_low(tasks, row.job) and overrun_since(trace, row))]


# How many ticks a job has had.
def used(trace, job):
    return sum(run.length for run in trace.of_job.get(('tick', job), []))


# The key of a job in parts of a tick, q to a tick: its deadline; of a high job in low mode its release and p/q of its
# period.
def key(rule, high_mode, task, release):
    if rule != PLAIN and not high_mode and task.level == HIGH:
        return rule.q * release + rule.p * task.period
    return rule.q * (release + task.period)


# The key of each of the jobs, as things stand.
def keys(tasks, rule, trace, jobs):
    high_mode = is_high_mode(rule, trace)
    return {job: key(rule, high_mode, task_of(tasks, job), release_time(trace, job)) for job in jobs}


# How a job's next tick ends where the job is not done with it.
def how_of(tasks, rule, trace, job):
    task = task_of(tasks, job)
    with_this = used(trace, job) + 1
    if with_this == task.high:
        return STOP
    if task.level == HIGH and rule != PLAIN and not is_high_mode(rule, trace) and with_this == task.low:
        return OVER
    return MORE


# Whether a release at the next boundary is dropped: of a low task in high mode.
def is_dropped(tasks, rule, trace, job):
    return is_low(tasks, job) and is_high_mode(rule, trace)


# The task's releases, kept or dropped.
def releases_of(trace, task):
    return [row for row in trace.of(*RELEASES) if row.job.task == task]


# ---- The judge ----

# The first part of a row that does not fit the rows before it, which all fit, or None. The row is the first of a run.
def misfit(tasks, rule, before, row):
    if row.kind == IDLE:
        return 'idle_pending' if pending(tasks, before) else None
    return (release_misfit if row.kind in RELEASES else tick_misfit)(tasks, rule, before, row)


# Of a release: whether those of its task are a period ago, its count, whether it is kept.
def release_misfit(tasks, rule, before, row):
    earlier = releases_of(before, row.job.task)
    if any(ticks(before) < release.tick + task_of(tasks, row.job).period for release in earlier):
        return 'too_soon'
    if row.job.count != len(earlier) + 1:
        return 'wrong_count'
    if (row.kind == DROPPED) != is_dropped(tasks, rule, before, row.job):
        return 'wrong_kept'
    return None


# Of a tick: whether its job is pending, whether its key is a least one, how it ends. A job may be done at each tick up
# to its own budget.
def tick_misfit(tasks, rule, before, row):
    waiting = keys(tasks, rule, before, pending(tasks, before))
    if row.job not in waiting:
        return 'not_pending'
    if any(other < waiting[row.job] for other in waiting.values()):
        return 'not_least'
    in_budget = used(before, row.job) + 1 <= task_of(tasks, row.job).high
    if not (row.kind == DONE and in_budget) and row.kind != how_of(tasks, rule, before, row.job):
        return 'wrong_how'
    return None


# A run cut before each of its rows that may fit otherwise than the one before it: those with which its job has had one
# of its budgets. Nothing else that is asked of a row changes in a run.
def pieces(tasks, before, run):
    cuts = {0, run.length}
    if run.length > 1 and run.job is not None:
        budgets = task_of(tasks, run.job).low, task_of(tasks, run.job).high
        cuts.update(budget - used(before, run.job) - 1 for budget in budgets)
    cuts = sorted(cut for cut in cuts if 0 <= cut <= run.length)
    return [run._replace(tick=run.tick + cut, length=end - cut) for cut, end in zip(cuts, cuts[1:])]


# The number of the first row that does not fit and the part that fails, or None where the trace is legal.
def first_misfit(tasks, rule, runs):
    place, before = 1, Trace()
    for run in runs:
        for piece in pieces(tasks, before, run):
            why = misfit(tasks, rule, before, piece)
            if why is not None:
                return place, why
            place += piece.length
            before.add(piece)
    return None


# Whether a kept job is late in a whole trace: the trace has all ticks before its deadline, and among these it did not
# end, and no overrun discarded it.
def is_late(tasks, trace, release):
    deadline = release.tick + task_of(tasks, release.job).period
    ended = any(row.job == release.job and row.tick < deadline for row in trace.of(DONE, STOP))
    discarded = is_low(tasks, release.job) and any(release.tick <= over.tick < deadline for over in trace.of(OVER))
    return deadline <= ticks(trace) and not ended and not discarded


# The late jobs of a whole trace, in the order of their releases.
def late(tasks, runs):
    trace = Trace(runs)
    return [row.job for row in trace.of(KEPT) if is_late(tasks, trace, row)]


# Whether a trace is found legal with no job late, and the line that says so.
def verdict(tasks, rule, runs):
    place_and_why = first_misfit(tasks, rule, runs)
    if place_and_why is not None:
        return False, 'illegal row {} {}\n'.format(*place_and_why)
    jobs = late(tasks, runs)
    if jobs:
        return False, f'legal late {len(jobs)} first {task_of(tasks, jobs[0]).name} {jobs[0].count}\n'
    return True, 'legal late 0\n'


# ---- The one trace of a list of work ----

# A row of the work: a task's number, the boundary of a release of it, and the ticks that this job needs.
class Work(NamedTuple):
    task: int
    release: int
    need: int


# The need of a job: that of the task's row with its number.
def need(work, job):
    return [row for row in work if row.task == job.task][job.count - 1].need


# The rows of `count` ticks, one after the other: at each boundary the releases, in the order of the work; then a tick
# of the least key, and of equal keys of the lowest task number; or an idle tick where nothing is pending.
def follow(tasks, rule, work, count):
    trace = Trace()
    for tick in range(count):
        for row in work:
            if row.release == tick:
                job = Job(row.task, len(releases_of(trace, row.task)) + 1)
                trace.add(Run(DROPPED if is_dropped(tasks, rule, trace, job) else KEPT, tick, job))
        trace.add(next_tick(tasks, rule, work, trace))
    return trace.runs


# The tick that comes next.
def next_tick(tasks, rule, work, trace):
    waiting = keys(tasks, rule, trace, pending(tasks, trace))
    if not waiting:
        return Run(IDLE, ticks(trace), None)
    job = min(waiting, key=lambda job: (waiting[job], job.task))
    is_done = used(trace, job) + 1 == need(work, job)
    return Run(DONE if is_done else how_of(tasks, rule, trace, job), ticks(trace), job)


# Whether rows follow the work, by what is said of a whole trace: they are legal, end with the last tick, have the
# releases of the work in its order, and each tick is as the work has it.
def follows(tasks, rule, work, count, runs):
    rows = rows_of(runs)
    released = [(row.job.task, row.tick) for row in rows if row.kind in RELEASES]
    return (
        first_misfit(tasks, rule, rows) is None
        and ticks(Trace(rows)) == count
        and rows[-1].kind not in RELEASES
        and released == [(row.task, row.release) for row in work if row.release < count]
        and all(is_worked(tasks, rule, work, before, row) for before, row in with_before(rows) if row.kind in TICKS))


# Whether a tick ends its job with `done` exactly at its need, and passes over no equal key of a lower task number.
def is_worked(tasks, rule, work, before, row):
    waiting = keys(tasks, rule, before, pending(tasks, before))
    passed_over = any(waiting[job] == waiting[row.job] and job.task < row.job.task for job in waiting)
    return not passed_over and (row.kind == DONE) == (used(before, row.job) + 1 == need(work, row.job))


# ---- Texts ----

# A fraction in lowest terms.
def ratio(fraction):
    return f'{fraction.numerator}/{fraction.denominator}'


# The three utilisations by name.
def loads_words(tasks):
    return [f'{name} {ratio(load)}' for name, load in zip(['U_LL', 'U_HL', 'U_HH'], loads(tasks))]


# Texts as lines, each with its line feed.
def lines(texts):
    return ''.join(text + '\n' for text in texts)


# The number of tasks, the utilisations, the rule and its scale; and that of the set where it has one that does not hold.
def check_text(task_set, rule):
    tasks, own = task_set
    scale = [] if rule == PLAIN else [f'x {rule.p}/{rule.q}']
    unheld = [] if own is None or holds(tasks, virtual(*own)) else [f'scale {own.p}/{own.q} does not hold']
    return lines([f'tasks {len(tasks)}'] + loads_words(tasks) + [f'rule {rule.name}'] + scale + unheld)


# The header of each version of a trace. A record of version 1 is a row, and one of version 2 is a run.
TRACE_HEADERS = {
    1: ['event', 'tick', 'task', 'job', 'how'],
    2: ['event', 'tick', 'length', 'task', 'job', 'how'],
}


# The six fields of a run.
def run_fields(tasks, run):
    length = '' if run.kind in RELEASES else str(run.length)
    name_and_count = ['', ''] if run.kind == IDLE else [task_of(tasks, run.job).name, str(run.job.count)]
    return [EVENTS[run.kind], str(run.tick), length] + name_and_count + ['' if run.kind == IDLE else run.kind]


# The header of version 2, and a line for each run, which are as few as they can be.
def trace_text(tasks, runs):
    fields = [run_fields(tasks, run) for run in Trace(runs).runs]
    return lines(','.join(record) for record in [TRACE_HEADERS[2]] + fields)


CHART_CHARACTERS = {MORE: '#', DONE: 'D', STOP: 'S', OVER: 'O'}


# A line for each task with a character for each tick, and one with the mode before each tick.
def chart_text(tasks, runs):
    trace = Trace(runs)
    if ticks(trace) > MOST_CHART_TICKS:
        raise Refusal(5, f'trace has {ticks(trace)} ticks, a chart has at most {MOST_CHART_TICKS}\n')
    drawn = [run for run in trace.runs if run.kind not in RELEASES]
    width = max([6] + [len(task.name) for task in tasks])
    chart = []
    for number, task in enumerate(tasks, 1):
        chart.append(task.name.ljust(width) + ' ' + ''.join(
            run.length * (CHART_CHARACTERS[run.kind] if run.kind != IDLE and run.job.task == number else '.')
            for run in drawn))
    modes = [mode_before(trace, run.tick) + (run.length - 1) * mode_before(trace, run.tick + 1) for run in drawn]
    return lines(chart + ['(mode)'.ljust(width) + ' ' + ''.join(modes)])


# `H` where there is an overrun before a tick, and no idle tick between them, and else `L`.
def mode_before(trace, tick):
    last_idle = max((min(run.tick + run.length, tick) - 1 for run in trace.of(IDLE) if run.tick < tick), default=-1)
    return 'H' if any(last_idle < over.tick < tick for over in trace.of(OVER)) else 'L'


# Whether a kept job was discarded: it is low, there is an overrun after its release, and it did not end before the
# first of these.
def is_discarded(tasks, trace, release):
    overs = [over.tick for over in trace.of(OVER) if over.tick >= release.tick]
    return is_low(tasks, release.job) and bool(overs) and not any(
        row.job == release.job and row.tick < min(overs) for row in trace.of(DONE, STOP))


# What is counted of one task: releases, kept and dropped ones, discarded jobs, done and stopped ones, ticks.
def counts(tasks, trace, number):
    def of(*kinds):
        return [run for run in trace.of(*kinds) if run.job.task == number]
    discarded = [row for row in of(KEPT) if is_discarded(tasks, trace, row)]
    return {
        'released': len(of(*RELEASES)), 'kept': len(of(KEPT)), 'dropped': len(of(DROPPED)), 'discarded': len(discarded),
        'done': len(of(DONE)), 'stopped': len(of(STOP)), 'ticks': sum(run.length for run in of(*TICKS))}


# The greatest number of ticks from the release of a job of the task to the end of its last tick, or `-`.
def response(trace, number):
    responses = [row.tick + 1 - release_time(trace, row.job) for row in trace.of(DONE, STOP) if row.job.task == number]
    return max(responses, default='-')


# What is counted of each task, and the greatest response; then the idle ticks and the overruns.
def report_text(tasks, runs):
    trace = Trace(runs)
    told = []
    for number, task in enumerate(tasks, 1):
        words = ' '.join(f'{word} {count}' for word, count in counts(tasks, trace, number).items())
        told.append(f'task {task.name} {words} response {response(trace, number)}')
    return lines(told + [f'idle {trace.count(IDLE)}', f'switches {trace.count(OVER)}'])


# The sums of a report over all tasks.
def summary_text(tasks, runs):
    trace = Trace(runs)
    of_tasks = [counts(tasks, trace, number) for number in range(1, len(tasks) + 1)]
    sums = {word: sum(of_task[word] for of_task in of_tasks) for word in of_tasks[0]}
    spent = sums.pop('ticks')
    return lines([
        ' '.join(f'{word} {count}' for word, count in sums.items()),
        f'ticks {spent} idle {trace.count(IDLE)} switches {trace.count(OVER)}'])


# ---- Random workloads ----

# The 32-bit words of PCG's generator XSH RR of 64 bits of state, for a seed and a stream.
def pcg_words(seed, stream):
    multiplier, increment, below = 6364136223846793005, 2 * stream + 1, 2 ** 64
    state = ((seed + increment) * multiplier + increment) % below
    while True:
        word = ((state >> 18) ^ state) >> 27 & 0xffffffff
        turn = state >> 59
        yield (word >> turn | word << (32 - turn)) & 0xffffffff
        state = (state * multiplier + increment) % below


SOAK_STREAM = 54
SOAK_PERIODS = [200, 250, 400, 500, 800, 1000, 1250, 2000, 2500, 4000, 5000, 10000]


# The tasks and the work that a seed makes: for each task a word for its period, of a high one a word for its low
# budget, and a word for the stretch between its releases; then for each job a word for its need.
def make(seed, count, end):
    words = pcg_words(seed, SOAK_STREAM)
    high_count, low_count = (count + 1) // 2, count // 2
    tasks, stretches = [], []
    for number in range(1, count + 1):
        period = SOAK_PERIODS[next(words) % 12]
        if number % 2 == 1:
            low = 1 + next(words) % (period // (4 * high_count))
            tasks.append(Task(f't{number}', HIGH, period, low, 3 * period // (4 * high_count)))
        else:
            low = period // (2 * low_count)
            tasks.append(Task(f't{number}', LOW, period, low, low))
        stretches.append(next(words) % 16)
    releases = sorted(
        (release, number) for number, (task, stretch) in enumerate(zip(tasks, stretches), 1)
        for release in range(0, end, task.period + stretch))
    return tasks, [Work(number, release, made_need(tasks[number - 1], next(words))) for release, number in releases]


# The need of a job: the high budget of a high task once in 64 words, and else up to the low budget.
def made_need(task, word):
    return task.high if task.level == HIGH and word % 64 == 0 else 1 + word % task.low


# The line of the call, the rule, the sums of the trace that follows the generated work, and the verdict on it.
def soak_text(seed, count, end):
    tasks, work = make(seed, count, end)
    rule = published(tasks)
    runs = follow(tasks, rule, work, end)
    scale = '' if rule == PLAIN else f' x {rule.p}/{rule.q}'
    first = lines([f'soak {seed} {count} {end}', f'rule {rule.name}{scale}'])
    return first + summary_text(tasks, runs) + verdict(tasks, rule, runs)[1]


# ---- Live traces ----

# The need of a job of a live trace: of a high task each fourth needs the high budget, and all others the low one.
def live_need(tasks, job):
    task = task_of(tasks, job)
    return task.high if task.level == HIGH and job.count % 4 == 0 else task.low


# What is wrong with a text that `live` wrote for a set, or None. There are many that are right.
def live_fault(task_set, count, text):
    tasks = task_set.tasks
    try:
        runs = read_trace(tasks, text)
    except Refusal as refusal:
        return refusal.line[:-1]
    in_time, line = verdict(tasks, test(task_set), runs)
    if not in_time:
        return line[:-1]
    if text != trace_text(tasks, runs):
        return 'not the text of its runs'
    if ticks(Trace(runs)) != count:
        return f'{ticks(Trace(runs))} ticks'
    if runs[-1].kind in RELEASES:
        return 'a release at the end'
    early_or_late = [run.job for before, run in with_before(runs) if run.kind in TICKS and not ends_by_need(
        tasks, before, run)]
    return f'job {early_or_late[0].count} of task {early_or_late[0].task} not by its need' if early_or_late else None


# Whether a run of ticks has the one with which its job has had its need exactly where it is done.
def ends_by_need(tasks, before, run):
    past = used(before, run.job)
    return (run.kind == DONE) == (past < live_need(tasks, run.job) <= past + run.length)


# ---- Demand sets under plain EDF ----

# A task of a demand set, which is a list of them. Its deadline is counted from a release, and is at most its period.
class Demand(NamedTuple):
    name: str
    period: int
    deadline: int
    budget: int


# The least common multiple of the periods.
def hyperperiod(demands):
    return math.lcm(*[task.period for task in demands])


# The demand of `length` ticks: the budgets of all jobs with release and deadline in them, if each task releases at once and
# then as often as it may.
def demand(demands, length):
    return sum(
        ((length - task.deadline) // task.period + 1) * task.budget for task in demands if task.deadline <= length)


# The least length, up to the hyperperiod, in which jobs need more ticks than it has, or None.
def first_past(demands):
    return next((length for length in range(1, hyperperiod(demands) + 1) if demand(demands, length) > length), None)


# A row of a run under plain EDF: a release, a tick of a job, which is marked if it must be the job's last, or an
# idle tick.
class EdfRow(NamedTuple):
    event: str
    job: Optional[Job] = None
    last: bool = False


# A released job and the number of tick and idle rows before its release.
class EdfJob(NamedTuple):
    job: Job
    release: int


# The number of tick and idle rows.
def edf_ticks(rows):
    return sum(row.event != 'release' for row in rows)


# The released jobs, in order.
def edf_jobs(rows):
    jobs, now = [], 0
    for row in rows:
        if row.event == 'release':
            jobs.append(EdfJob(row.job, now))
        now += row.event != 'release'
    return jobs


# A job's time of release plus its task's deadline.
def edf_deadline(demands, released):
    return released.release + demands[released.job.task - 1].deadline


# The jobs without a tick that is marked as their last, and with fewer ticks than their budget.
def edf_pending(demands, rows):
    waiting = []
    for released in edf_jobs(rows):
        own = [row for row in rows if row.event == 'tick' and row.job == released.job]
        if not any(row.last for row in own) and len(own) < demands[released.job.task - 1].budget:
            waiting.append(released)
    return waiting


# Why a row may not come after these in an EDF run, or None.
def edf_misfit(demands, before, row):
    waiting = edf_pending(demands, before)
    if row.event == 'idle':
        return 'idle_pending' if waiting else None
    if row.event == 'tick':
        deadlines = [edf_deadline(demands, released) for released in waiting]
        own = [edf_deadline(demands, released) for released in waiting if released.job == row.job]
        if not own:
            return 'not_pending'
        return 'not_earliest' if own[0] > min(deadlines) else None
    if not 1 <= row.job.task <= len(demands):
        return 'unknown_task'
    earlier = [released.release for released in edf_jobs(before) if released.job.task == row.job.task]
    if row.job.count != len(earlier) + 1:
        return 'wrong_count'
    too_soon = earlier and edf_ticks(before) < earlier[-1] + demands[row.job.task - 1].period
    return 'too_soon' if too_soon else None


# Whether the rows are an EDF run.
def is_edf_run(demands, rows):
    return all(edf_misfit(demands, rows[:place], row) is None for place, row in enumerate(rows))


# The rows up to and with the tick or idle row of this number, from 1.
def first_ticks(rows, count):
    return [row for place, row in enumerate(rows) if edf_ticks(rows[:place]) < count]


# The late jobs, in the order of their releases: their deadline has come, and at it they were pending.
def edf_late(demands, rows):
    late_ones = []
    for released in edf_jobs(rows):
        end = edf_deadline(demands, released)
        if end <= edf_ticks(rows) and released in edf_pending(demands, first_ticks(rows, end)):
            late_ones.append(released.job)
    return late_ones


# The run of `length` ticks in which each task releases at every multiple of its period, the tasks of one boundary in
# their order, every job uses its whole budget, and of equal deadlines the lowest task number has the tick.
def counterexample(demands, length):
    rows = []
    for now in range(length):
        for number, task in enumerate(demands, 1):
            if now % task.period == 0:
                rows.append(EdfRow('release', Job(number, now // task.period + 1)))
        waiting = edf_pending(demands, rows)
        first = min(waiting, key=lambda released: (edf_deadline(demands, released), released.job.task), default=None)
        rows.append(EdfRow('idle') if first is None else EdfRow('tick', first.job))
    return rows


# The lines of the rows, and that of the late job that was released first.
def counterexample_lines(demands, rows):
    for place, row in enumerate(rows):
        now = edf_ticks(rows[:place])
        job = '' if row.job is None else f'{demands[row.job.task - 1].name} {row.job.count}'
        yield {'release': f'release {job} at {now}', 'tick': f'tick {now} {job}', 'idle': f'idle {now}'}[row.event]
    job = edf_late(demands, rows)[0]
    yield f'late {demands[job.task - 1].name} {job.count}'


# What the command `demand` writes for a demand file.
def demand_text(text):
    demands = read_demands(text)
    length = first_past(demands)
    if length is None:
        return f'schedulable, demand checked to {hyperperiod(demands)}\n'
    rows = counterexample(demands, length)
    told = [f'not schedulable: demand {demand(demands, length)} in length {length}']
    raise Refusal(10, lines(told + list(counterexample_lines(demands, rows))))


# ---- Several processors ----

# Whether one processor takes these tasks: they are within the range, and the published test gives them a rule. A
# processor's tasks have no scale.
def fits(tasks):
    return out_of_range(tasks) is None and published(tasks) is not None


# The tasks of a processor, in the order of the whole set.
def part(tasks, processors, number):
    return [task for task, processor in zip(tasks, processors) if processor == number]


# The processor of each task, from 1: in order, the first one that takes the task beside those that it has. The first task
# that none of them takes is refused.
def first_fit(tasks, count):
    processors = []
    for task in tasks:
        taking = [number for number in range(1, count + 1) if fits(part(tasks, processors, number) + [task])]
        if not taking:
            raise Refusal(12, f'not partitioned: task {task.name} fits on none of {count}\n')
        processors.append(taking[0])
    return processors


# A line for each processor, with the names of its tasks.
def partition_text(tasks, count):
    processors = first_fit(tasks, count)
    return lines(
        ' '.join([f'processor {number}'] + [task.name for task in part(tasks, processors, number)])
        for number in range(1, count + 1))


# The work of a processor's tasks, with the numbers that the tasks have there.
def part_work(processors, number, work):
    own = [task for task, processor in enumerate(processors, 1) if processor == number]
    return [row._replace(task=own.index(row.task) + 1) for row in work if row.task in own]


# For each processor with tasks its line, and the text of the trace that follows its tasks' work under their own rule.
def runall_text(tasks, text, end, count):
    processors = first_fit(tasks, count)
    work = read_work(tasks, text)
    told = ''
    for number in sorted(set(processors)):
        own, own_work = part(tasks, processors, number), part_work(processors, number, work)
        runs = follow(own, published(own), own_work, end)
        assert follows(own, published(own), own_work, end, runs)
        told += f'processor {number}\n' + trace_text(own, runs)
    return told


# ---- How far the high budgets may grow ----

MOST_PERCENT = 1000


# The tasks with their high budgets at `percent` percent, rounded down: no more than a number may be, and
# no less than the low budget.
def at_percent(tasks, percent):
    return [
        task._replace(high=max(task.low, min(task.high * percent // 100, MOST))) if task.level == HIGH else task
        for task in tasks]


# The greatest of the percentages from 0 to 1000 at which the published test gives a rule, or None.
def stretch(tasks):
    percents = [percent for percent in range(MOST_PERCENT + 1) if published(at_percent(tasks, percent)) is not None]
    return max(percents, default=None)


# The stretch, and U_HH at it and, but at the greatest one, at the percentage above it.
def stretch_text(tasks):
    greatest = stretch(tasks)
    shown = [0] if greatest is None else range(greatest, min(greatest + 1, MOST_PERCENT) + 1)
    told = [f'U_HH {ratio(loads(at_percent(tasks, percent))[2])} at {percent}' for percent in shown]
    return lines(['stretch none' if greatest is None else f'stretch {greatest}'] + told)


ACCEPTED_AT = range(100, 201, 10)


# For each of eleven percentages how many of `sets` random sets, from `seed` on, have that stretch or a greater one.
def accept_text(seed, sets, count):
    stretches = [stretch(make(number, count, 0)[0]) for number in range(seed, seed + sets)]
    return lines(
        f'{percent} {sum(greatest is not None and greatest >= percent for greatest in stretches)}'
        for percent in ACCEPTED_AT)


# ---- Files ----

MOST = 4294967295
MOST_TASKS, MOST_JOBS, MOST_ROWS = 128, 1000000, 2000000
MOST_TICKS, MOST_CHART_TICKS = 100000000, 2000000
DIGITS = set('0123456789')
NAME_CHARACTERS = set('ABCDEFGHIJKLMNOPQRSTUVWXYZabcdefghijklmnopqrstuvwxyz0123456789_-')


# What is written in place of the text, with its status.
class Refusal(Exception):
    def __init__(self, status, line):
        super().__init__(line)
        self.status = status
        self.line = line


# The value of a text of at most `digits` digits, or None if it is no number or above `most`.
def number_of(text, digits=10, most=MOST):
    if not 1 <= len(text) <= digits or not set(text) <= DIGITS or int(text) > most:
        return None
    return int(text)


# The records of a text without quotes: fields between commas, a record a line, empty lines passed over.
def records(text):
    return [line.split(',') for line in text.split('\n') if line]


# The number of the task of a name, or None.
def task_number(tasks, name):
    return next((number for number, task in enumerate(tasks, 1) if task.name == name), None)


# The jobs of a work file. The first refusal decides.
def read_work(tasks, text):
    work = []
    if records(text)[:1] != [['task', 'release', 'need']]:
        raise Refusal(4, 'work file line 1: header is not task,release,need\n')
    for line, record in enumerate(records(text)[1:], 2):
        fault = work_fault(tasks, work, record)
        if fault is not None:
            raise Refusal(4, f'work file line {line}: {fault}\n')
        work.append(Work(task_number(tasks, record[0]), number_of(record[1]), number_of(record[2])))
    return work


# What is wrong with a record after the jobs before it, or None.
def work_fault(tasks, before, record):
    if len(before) == MOST_JOBS:
        return f'more than {MOST_JOBS} rows'
    if len(record) != 3:
        return 'not three fields'
    task, release, needed = task_number(tasks, record[0]), number_of(record[1]), number_of(record[2])
    if task is None:
        return 'unknown task'
    if release is None or needed is None:
        return 'bad number'
    if needed == 0:
        return 'need is 0'
    if before and release < before[-1].release:
        return 'release before the last one'
    allowed = max((row.release + tasks[task - 1].period for row in before if row.task == task), default=0)
    return f'too soon, next {allowed}' if release < allowed else None


# The runs of a trace file, which its first record gives a version. The first refusal decides.
def read_trace(tasks, text):
    header = records(text)[:1]
    if header not in [[known] for known in TRACE_HEADERS.values()]:
        raise Refusal(5, 'trace line 1: header is of no trace version\n')
    runs, due = [], 0
    for line, record in enumerate(records(text)[1:], 2):
        fault = f'more than {MOST_ROWS} rows' if len(runs) == MOST_ROWS else trace_fault(tasks, header[0], due, record)
        if fault is not None:
            raise Refusal(5, f'trace line {line}: {fault}\n')
        event, tick, length, name, count, how = six_fields(record)
        job = None if event == 'idle' else Job(task_number(tasks, name), number_of(count))
        runs.append(Run(how or IDLE, number_of(tick), job, number_of(length) or 1))
        due += number_of(length) or 0
    return runs


# The fields of a record of either version. In version 1 a tick or idle record is of length 1.
def six_fields(record):
    if len(record) == len(TRACE_HEADERS[2]):
        return record
    return record[:2] + ['' if record[0] == 'release' else '1'] + record[2:]


# What is wrong with a record after `due` ticks, or None.
def trace_fault(tasks, header, due, record):
    if len(record) != len(header):
        return f'not {"five" if header == TRACE_HEADERS[1] else "six"} fields'
    event, tick, length, name, count, how = six_fields(record)
    if (event, how) not in [(EVENTS[kind], '' if kind == IDLE else kind) for kind in EVENTS]:
        return 'unknown event'
    if event == 'idle' and (name or count) or event == 'release' and length:
        return 'unknown event'
    if event != 'idle' and task_number(tasks, name) is None:
        return 'unknown task'
    numbers = [tick] + [length] * (event != 'release') + [count] * (event != 'idle')
    if None in map(number_of, numbers):
        return 'bad number'
    if number_of(tick) != due:
        return 'wrong tick'
    if event == 'release':
        return None
    if length_fault(number_of(length), how):
        return 'bad length'
    return f'more than {MOST_TICKS} ticks' if due + number_of(length) > MOST_TICKS else None


# Whether no record may have this length: it is 0, or more than 1 although the job does not go on after the first tick.
def length_fault(length, how):
    return length == 0 or length > 1 and how not in (MORE, '')


DEMAND_HEADER = ['task', 'period', 'deadline', 'budget']
MOST_LCM = 500000


# The tasks of a demand file. The first refusal decides.
def read_demands(text):
    demands, rest = [], records(text)
    if rest[:1] != [DEMAND_HEADER]:
        raise Refusal(11, f'demand file line 1: header is not {",".join(DEMAND_HEADER)}\n')
    if len(rest) == 1:
        raise Refusal(11, 'demand file line 1: no tasks\n')
    for line, record in enumerate(rest[1:], 2):
        fault = demand_fault(demands, record)
        if fault is not None:
            raise Refusal(11, f'demand file line {line}: {fault}\n')
        demands.append(Demand(record[0], *map(number_of, record[1:])))
    return demands


# What is wrong with a record after the tasks before it, or None.
def demand_fault(before, record):
    if len(before) == MOST_TASKS:
        return f'more than {MOST_TASKS} tasks'
    if len(record) != 4:
        return 'not four fields'
    name, numbers = record[0], [number_of(field) for field in record[1:]]
    if not 1 <= len(name) <= 32 or not set(name) <= NAME_CHARACTERS:
        return 'bad name'
    if name in [task.name for task in before]:
        return 'name used before'
    if None in numbers:
        return 'bad number'
    if 0 in numbers:
        return 'number is 0'
    period, deadline, _ = numbers
    if deadline > period:
        return 'deadline after period'
    multiple = hyperperiod(before + [Demand(name, *numbers)])
    return 'periods out of range' if multiple > MOST_LCM else None


TASK_KEYS = ['name', 'level', 'period', 'low', 'high']


# A key as an error message shows it: the first 32 bytes, with `?` for each that is no visible ASCII character.
def shown(key_text):
    return ''.join(chr(byte) if 0x21 <= byte <= 0x7e else '?' for byte in key_text.encode()[:32])


# The first key in byte order that is not among the known ones, or None.
def unknown_key(table, known):
    return min((key_text for key_text in table if key_text not in known), key=str.encode, default=None)


# Whether a value of a tree is a whole number, and not true or false.
def is_whole(value):
    return isinstance(value, int) and not isinstance(value, bool)


# Whether a whole number outside 64 bits stands somewhere in a tree. Its text is no document.
def has_wide_number(tree):
    if isinstance(tree, dict):
        return any(has_wide_number(value) for value in tree.values())
    if isinstance(tree, list):
        return any(has_wide_number(value) for value in tree)
    return is_whole(tree) and not -2 ** 63 <= tree < 2 ** 63


# The set of a task file's tree. The first refusal decides.
def read_set(tree):
    fault = tree_fault(tree) or tables_fault(tree['task'])
    if fault is None:
        tasks = [task_of_table(table) for table in tree['task']]
        fault = set_fault(tasks)
    if fault is not None:
        raise Refusal(3, f'task file: {fault}\n')
    return TaskSet(tasks, scale_of(tree['scale']) if 'scale' in tree else None)


# The tasks of a task file's tree.
def read_tasks(tree):
    return read_set(tree).tasks


# The scale of an array of two numbers that has no fault.
def scale_of(numbers):
    scale = Fraction(*numbers)
    return Scale(scale.numerator, scale.denominator)


# The task of a table that has no fault.
def task_of_table(table):
    return Task(table['name'], table['level'], table['period'], table['low'], table.get('high', table['low']))


# What is wrong with the tree apart from the tasks' tables, or None.
def tree_fault(tree):
    if has_wide_number(tree):
        return 'not TOML'
    other = unknown_key(tree, ['version', 'task'] + (['scale'] if is_version(tree, 2) else []))
    if other is not None:
        return f'unknown key {shown(other)}'
    if 'version' in tree and not (is_version(tree, 1) or is_version(tree, 2)):
        return 'unknown version'
    if 'scale' in tree and scale_fault(tree['scale']):
        return f'task 0: {scale_fault(tree["scale"])} scale'
    if 'task' not in tree or tree['task'] == []:
        return 'no tasks'
    if not isinstance(tree['task'], list):
        return 'task 0: wrong kind of task'
    return None


# Whether the version that a tree names is this whole number.
def is_version(tree, number):
    return 'version' in tree and is_whole(tree['version']) and tree['version'] == number


# What is wrong with the value of `scale`, or None: it is an array of two whole numbers p and q, with 1 <= p <= q <= MOST.
def scale_fault(value):
    if not (isinstance(value, list) and len(value) == 2 and all(map(is_whole, value))):
        return 'wrong kind of'
    p, q = value
    return None if 1 <= p <= q <= MOST else 'out of range'


# What is wrong with the first task's table that has a fault, or None.
def tables_fault(tables):
    faults = ((number, task_fault(table)) for number, table in enumerate(tables, 1))
    return next((f'task {number}: {fault}' for number, fault in faults if fault is not None), None)


# What is wrong with a task's table, or None.
def task_fault(table):
    if not isinstance(table, dict):
        return 'wrong kind of task'
    other = unknown_key(table, TASK_KEYS)
    if other is not None:
        return f'unknown key {shown(other)}'
    for known in TASK_KEYS[:4]:
        if known not in table:
            return f'missing key {known}'
    for known in TASK_KEYS:
        is_kind = is_whole if known in ('period', 'low', 'high') else lambda value: isinstance(value, str)
        if known in table and not is_kind(table[known]):
            return f'wrong kind of {known}'
    if not 1 <= len(table['name']) <= 32 or not set(table['name']) <= NAME_CHARACTERS:
        return 'bad name'
    if table['level'] not in (LOW, HIGH):
        return 'out of range level'
    for known in TASK_KEYS[2:]:
        if known in table and not 1 <= table[known] <= MOST:
            return f'out of range {known}'
    if table['level'] == HIGH and 'high' not in table:
        return 'missing key high'
    if table['level'] == LOW and 'high' in table:
        return 'high budget on a low task'
    return None


# What is wrong with a list of tasks, or None.
def set_fault(tasks):
    if len(tasks) > MOST_TASKS:
        return f'{len(tasks)} tasks, at most {MOST_TASKS}'
    for number, task in enumerate(tasks, 1):
        if task.low > task.high:
            return f'task {number}: high budget below low budget'
    for number, task in enumerate(tasks, 1):
        first = task_number(tasks, task.name)
        if first < number:
            return f'tasks {first} and {number} have one name'
    return None


# ---- The program ----

# The usage line, as the definition that the program's contract cites writes it out.
FORMS = (pathlib.Path(__file__).resolve().parent.parent / 'crates/command_line/specs/Form.antt').read_text(encoding='utf-8')
USAGE = re.search(r'^usage_line = codes "(.*)\\n"$', FORMS, re.MULTILINE)[1] + '\n'
COUNT_OF_WORDS = {
    'check': [0], 'run': [1], 'judge': [0, 2], 'chart': [0], 'report': [0], 'soak': [3], 'migrate': [0], 'live': [1],
    'demand': [0], 'partition': [1], 'runall': [2], 'stretch': [0], 'accept': [3]}


# The numbers after the files, each within its range.
def read_words(command, words):
    numbers = [number_of(word, 20, 2 ** 64 - 1) for word in words]
    if len(words) not in COUNT_OF_WORDS[command] or None in numbers:
        raise Refusal(2, USAGE)
    in_range = {
        'run': lambda end: 1 <= end <= 1000000,
        'soak': lambda seed, count, end: 2 <= count <= 32 and 1 <= end <= 1000000,
        'judge': lambda p=1, q=1: 1 <= p <= q <= MOST,
        'live': lambda end: 1 <= end <= 100000,
        'partition': lambda count: 1 <= count <= 16,
        'runall': lambda end, count: 1 <= end <= 1000000 and 1 <= count <= 16,
        'accept': lambda seed, sets, count: 1 <= sets <= 10000 and 2 <= count <= 32 and seed + sets < 2 ** 64,
    }.get(command, lambda: True)
    if not in_range(*numbers):
        raise Refusal(2, USAGE)
    return numbers


# The tasks, where they are within the range.
def within_range(tasks):
    number = out_of_range(tasks)
    if number is not None:
        raise Refusal(3, f'task file: task {number}: periods out of range\n')
    return tasks


# The rule of the test, for a set within the range.
def admitted(task_set):
    within_range(task_set.tasks)
    rule = test(task_set)
    if rule is None:
        raise Refusal(1, f'not admitted: {" ".join(loads_words(task_set.tasks))}\n')
    return rule


# The text of a command, for the tree of its task file, the text of its second file, and the words after them; None
# where it is one of many, as `live_fault` says. The one file of `demand` is given as the second.
def text_of(command, tree, second, words):
    numbers = read_words(command, words)
    if command in ('soak', 'accept'):
        return {'soak': soak_text, 'accept': accept_text}[command](*numbers)
    if command == 'demand':
        return demand_text(second)
    task_set = read_set(tree)
    tasks = task_set.tasks
    if command == 'stretch':
        return stretch_text(within_range(tasks))
    if command == 'partition':
        return partition_text(tasks, *numbers)
    if command == 'runall':
        return runall_text(tasks, second, *numbers)
    rule = virtual(*numbers) if command == 'judge' and numbers else admitted(task_set)
    if command == 'check':
        return check_text(task_set, rule)
    if command == 'live':
        return None
    if command == 'run':
        work = read_work(tasks, second)
        runs = follow(tasks, rule, work, numbers[0])
        assert follows(tasks, rule, work, numbers[0], runs)
        return trace_text(tasks, runs)
    runs = read_trace(tasks, second)
    in_time, line = verdict(tasks, rule, runs)
    if not in_time:
        raise Refusal(6, line)
    texts = {'judge': lambda *_: line, 'chart': chart_text, 'report': report_text, 'migrate': trace_text}
    return texts[command](tasks, runs)


# The status of a command and its text.
def answer(command, tree=None, second='', words=()):
    try:
        return 0, text_of(command, tree, second, words)
    except Refusal as refusal:
        return refusal.status, refusal.line


# ---- Worked examples ----

def tree_of(*tables):
    return {'task': list(tables)}


def high(name, period, low_budget, high_budget):
    return {'name': name, 'level': HIGH, 'period': period, 'low': low_budget, 'high': high_budget}


def low(name, period, budget):
    return {'name': name, 'level': LOW, 'period': period, 'low': budget}


def work_file(*rows):
    return lines(('task,release,need',) + rows)


def demand_file(*records):
    return lines((','.join(DEMAND_HEADER),) + records)


# A trace of version 1, a record for each row.
def rows_file(*records):
    return lines((','.join(TRACE_HEADERS[1]),) + records)


# A trace of version 2.
def trace_file(*records):
    return lines((','.join(TRACE_HEADERS[2]),) + records)


# The records of a version 1 trace as records of version 2, each of one row.
def with_lengths(records):
    fields = [record.split(',') for record in records]
    return [','.join(record[:2] + ['' if record[0] == 'release' else '1'] + record[2:]) for record in fields]


# A tree of version 2, with this scale.
def with_scale(tree, p, q):
    return dict(tree, version=2, scale=[p, q])


CONTROL = tree_of(high('ctl', 10, 2, 6), low('log', 10, 5))
TAP_AND_ARM = tree_of(low('tap', 2, 1), high('arm', 4, 1, 3))
QUARTER_SCALE = tree_of(low('a', 5, 3), high('b', 10, 1, 6))
TWO_HIGH_TASKS = tree_of(high('ctl', 10, 2, 6), high('fix', 10, 1, 1), low('log', 10, 4))
PLAIN_PAIR = tree_of(high('hi', 4, 1, 2), low('lo', 4, 2))
PUMP_AND_SCREEN = tree_of(high('pump', 10, 1, 6), low('screen', 5, 3))
PUMP_SCREEN_AND_LOG = tree_of(*PUMP_AND_SCREEN['task'], low('log', 10, 1))
PUMP_SCREEN_LOG_AND_NET = tree_of(*PUMP_SCREEN_AND_LOG['task'], low('net', 10, 1))
TAP_ARM_AND_LOG = tree_of(*TAP_AND_ARM['task'], low('log', 10, 5))
FIVE_LOW_TASKS = tree_of(low('a', 10, 5), low('b', 10, 8), low('c', 10, 2), low('d', 10, 3), low('e', 10, 2))
AVIONICS = tree_of(
    high('attitude', 5000, 400, 900), high('gyro', 10000, 600, 1500), high('engine', 20000, 1500, 4000),
    high('nav', 50000, 3000, 7000), low('display', 16667, 2500), low('radio', 25000, 2000), low('log', 100000, 8000),
    low('maint', 200000, 10000))

ROWS_OF_OVERRUN = rows_file(
    'release,0,ctl,1,kept', 'release,0,log,1,kept', 'tick,0,ctl,1,more', 'tick,1,ctl,1,over', 'tick,2,ctl,1,more',
    'tick,3,ctl,1,more', 'tick,4,ctl,1,more', 'tick,5,ctl,1,done', 'idle,6,,,', 'idle,7,,,', 'idle,8,,,', 'idle,9,,,',
    'release,10,log,2,kept', 'tick,10,log,2,more', 'tick,11,log,2,more')
OVERRUN_AND_RETURN = trace_file(
    'release,0,,ctl,1,kept', 'release,0,,log,1,kept', 'tick,0,1,ctl,1,more', 'tick,1,1,ctl,1,over',
    'tick,2,3,ctl,1,more', 'tick,5,1,ctl,1,done', 'idle,6,4,,,', 'release,10,,log,2,kept', 'tick,10,2,log,2,more')
OVERRUN_DRAWN = ['ctl    #O###D......', 'log    ..........##', '(mode) LLHHHHHLLLLL']
OVERRUN_COUNTED = [
    'task ctl released 1 kept 1 dropped 0 discarded 0 done 1 stopped 0 ticks 6 response 6',
    'task log released 2 kept 2 dropped 0 discarded 1 done 0 stopped 0 ticks 2 response -', 'idle 4', 'switches 1']
ROWS_OF_LOG_BEFORE_CTL = rows_file(
    'release,0,ctl,1,kept', 'release,0,log,1,kept', 'tick,0,log,1,more', 'tick,1,log,1,more', 'tick,2,log,1,more',
    'tick,3,log,1,more', 'tick,4,log,1,done', 'tick,5,ctl,1,more', 'tick,6,ctl,1,over', 'tick,7,ctl,1,more',
    'tick,8,ctl,1,more', 'tick,9,ctl,1,more', 'tick,10,ctl,1,done')
LOG_BEFORE_CTL = trace_file(
    'release,0,,ctl,1,kept', 'release,0,,log,1,kept', 'tick,0,4,log,1,more', 'tick,4,1,log,1,done',
    'tick,5,1,ctl,1,more', 'tick,6,1,ctl,1,over', 'tick,7,3,ctl,1,more', 'tick,10,1,ctl,1,done')
ALL_IDLE = trace_file('idle,0,100000000,,,')
AVIONICS_WORK = work_file(
    'attitude,0,400', 'gyro,0,600', 'engine,0,1500', 'nav,0,3000', 'display,0,2500', 'radio,0,2000', 'log,0,8000',
    'maint,0,10000', 'attitude,5000,400', 'attitude,10000,400', 'gyro,10000,600', 'attitude,15000,400',
    'display,16667,2500')
AVIONICS_REPORT = lines([
    'task attitude released 4 kept 4 dropped 0 discarded 0 done 4 stopped 0 ticks 1600 response 400',
    'task gyro released 2 kept 2 dropped 0 discarded 0 done 2 stopped 0 ticks 1200 response 1000',
    'task engine released 1 kept 1 dropped 0 discarded 0 done 1 stopped 0 ticks 1500 response 2500',
    'task nav released 1 kept 1 dropped 0 discarded 0 done 1 stopped 0 ticks 3000 response 8400',
    'task display released 2 kept 2 dropped 0 discarded 0 done 2 stopped 0 ticks 5000 response 5000',
    'task radio released 1 kept 1 dropped 0 discarded 0 done 1 stopped 0 ticks 2000 response 11400',
    'task log released 1 kept 1 dropped 0 discarded 0 done 0 stopped 0 ticks 5700 response -',
    'task maint released 1 kept 1 dropped 0 discarded 0 done 0 stopped 0 ticks 0 response -',
    'idle 0', 'switches 0'])


# Work of the pump and the screen, and its trace under the scale 2/5, by which their keys are equal at tick 1, and under the
# scales 1/4 and 1/2.
PUMP_WORK = work_file('screen,0,3', 'pump,1,1', 'screen,10,3', 'pump,12,1')
PUMP_BY_TWO_FIFTHS = trace_file(
    'release,0,,screen,1,kept', 'tick,0,1,screen,1,more', 'release,1,,pump,1,kept', 'tick,1,1,pump,1,done',
    'tick,2,1,screen,1,more', 'tick,3,1,screen,1,done', 'idle,4,6,,,', 'release,10,,screen,2,kept',
    'tick,10,2,screen,2,more', 'release,12,,pump,2,kept', 'tick,12,1,screen,2,done', 'tick,13,1,pump,2,done', 'idle,14,2,,,')
PUMP_BY_A_QUARTER = trace_file(
    'release,0,,screen,1,kept', 'tick,0,1,screen,1,more', 'release,1,,pump,1,kept', 'tick,1,1,pump,1,done',
    'tick,2,1,screen,1,more', 'tick,3,1,screen,1,done', 'idle,4,6,,,', 'release,10,,screen,2,kept',
    'tick,10,2,screen,2,more', 'release,12,,pump,2,kept', 'tick,12,1,pump,2,done', 'tick,13,1,screen,2,done', 'idle,14,2,,,')
PUMP_BY_ONE_HALF = trace_file(
    'release,0,,screen,1,kept', 'tick,0,1,screen,1,more', 'release,1,,pump,1,kept', 'tick,1,1,screen,1,more',
    'tick,2,1,screen,1,done', 'tick,3,1,pump,1,done', 'idle,4,6,,,', 'release,10,,screen,2,kept',
    'tick,10,2,screen,2,more', 'release,12,,pump,2,kept', 'tick,12,1,screen,2,done', 'tick,13,1,pump,2,done', 'idle,14,2,,,')


TAP_ARM_AND_LOG_WORK = work_file('tap,0,1', 'arm,0,3', 'log,0,5', 'tap,2,1', 'tap,4,1')
TAP_AND_ARM_TRACE = trace_file(
    'release,0,,tap,1,kept', 'release,0,,arm,1,kept', 'tick,0,1,tap,1,done', 'tick,1,1,arm,1,over',
    'release,2,,tap,2,dropped', 'tick,2,1,arm,1,more', 'tick,3,1,arm,1,done', 'release,4,,tap,3,dropped', 'idle,4,1,,,')
LOG_TRACE = trace_file('release,0,,log,1,kept', 'tick,0,4,log,1,more', 'tick,4,1,log,1,done')

# The words of a call, its files, its status and the lines of its text.
EXAMPLES = {
    'first_check': (
        'check', CONTROL, '', [], 0, ['tasks 2', 'U_LL 1/2', 'U_HL 1/5', 'U_HH 3/5', 'rule virtual', 'x 2/5']),
    'empty_task_file': ('check', {}, '', [], 3, ['task file: no tasks']),
    'load_exactly_one': (
        'check', tree_of(low('a', 2, 2)), '', [], 0, ['tasks 1', 'U_LL 1/1', 'U_HL 0/1', 'U_HH 0/1', 'rule plain']),
    'scale_one_half_at_equality': (
        'check', TAP_AND_ARM, '', [], 0, ['tasks 2', 'U_LL 1/2', 'U_HL 1/4', 'U_HH 3/4', 'rule virtual', 'x 1/2']),
    'not_admitted_by_the_high_load': (
        'check', tree_of(low('tap', 2, 1), high('arm', 4, 1, 4)), '', [], 1,
        ['not admitted: U_LL 1/2 U_HL 1/4 U_HH 1/1']),
    'no_divisor': (
        'check', tree_of(low('tap', 2, 2), high('arm', 4, 1, 1)), '', [], 1,
        ['not admitted: U_LL 1/1 U_HL 1/4 U_HH 1/4']),
    'period_range_of_two': (
        'check', tree_of(low('a', 4294967295, 1), low('b', 4294967294, 1)), '', [], 3,
        ['task file: task 2: periods out of range']),
    'period_range_of_three': (
        'check', tree_of(low('a', 2147483648, 1), low('b', 387420489, 1), low('c', 5, 1)), '', [], 3,
        ['task file: task 3: periods out of range']),
    'unrounded_key_check': (
        'check', QUARTER_SCALE, '', [], 0, ['tasks 2', 'U_LL 3/5', 'U_HL 1/10', 'U_HH 3/5', 'rule virtual', 'x 1/4']),
    'unrounded_key': (
        'run', QUARTER_SCALE, work_file('a,0,3', 'b,2,1'), ['5'], 0, trace_file(
            'release,0,,a,1,kept', 'tick,0,2,a,1,more', 'release,2,,b,1,kept', 'tick,2,1,b,1,done',
            'tick,3,1,a,1,done', 'idle,4,1,,,')),
    'overrun_and_return': ('run', CONTROL, work_file('ctl,0,6', 'log,0,5', 'log,10,5'), ['12'], 0, OVERRUN_AND_RETURN),
    'deadline_met_exactly_in_high_mode': (
        'run', TAP_AND_ARM, work_file('tap,0,1', 'arm,0,3', 'tap,2,1', 'tap,4,1'), ['5'], 0, TAP_AND_ARM_TRACE),
    'stop_without_a_switch_check': (
        'check', TWO_HIGH_TASKS, '', [], 0, ['tasks 3', 'U_LL 2/5', 'U_HL 3/10', 'U_HH 7/10', 'rule virtual', 'x 1/2']),
    'stop_without_a_switch': (
        'run', TWO_HIGH_TASKS, work_file('fix,0,5', 'log,0,9'), ['6'], 0, trace_file(
            'release,0,,fix,1,kept', 'release,0,,log,1,kept', 'tick,0,1,fix,1,stop', 'tick,1,3,log,1,more',
            'tick,4,1,log,1,stop', 'idle,5,1,,,')),
    'late_under_a_scale_that_does_not_hold': (
        'judge', CONTROL, ROWS_OF_LOG_BEFORE_CTL, ['1', '1'], 6, ['legal late 1 first ctl 1']),
    'late_under_a_scale_that_does_not_hold_by_runs': (
        'judge', CONTROL, LOG_BEFORE_CTL, ['1', '1'], 6, ['legal late 1 first ctl 1']),
    'not_least': ('judge', CONTROL, ROWS_OF_LOG_BEFORE_CTL, [], 6, ['illegal row 3 not_least']),
    'not_least_by_runs': ('judge', CONTROL, LOG_BEFORE_CTL, [], 6, ['illegal row 3 not_least']),
    'held_release_dropped': (
        'run', CONTROL, work_file('ctl,0,6', 'log,2,5'), ['4'], 0, trace_file(
            'release,0,,ctl,1,kept', 'tick,0,1,ctl,1,more', 'tick,1,1,ctl,1,over', 'release,2,,log,1,dropped',
            'tick,2,2,ctl,1,more')),
    'work_file_too_soon': (
        'run', CONTROL, work_file('ctl,0,6', 'ctl,9,1'), ['9'], 4, ['work file line 3: too soon, next 10']),
    'work_file_unknown_task': ('run', CONTROL, work_file('bob,0,1'), ['9'], 4, ['work file line 2: unknown task']),
    'work_file_need_is_zero': ('run', CONTROL, work_file('ctl,0,0'), ['9'], 4, ['work file line 2: need is 0']),
    'work_file_out_of_order': (
        'run', CONTROL, work_file('log,5,1', 'ctl,4,1'), ['9'], 4, ['work file line 3: release before the last one']),
    'work_file_empty': ('run', CONTROL, '', ['9'], 4, ['work file line 1: header is not task,release,need']),
    'trace_cut_in_a_field': (
        'judge', CONTROL, rows_file('release,0,ctl,1,kept', 'tick,0,ct'), [], 5, ['trace line 3: not five fields']),
    'trace_cut_in_a_word': (
        'judge', CONTROL, rows_file('release,0,ctl,1,kept', 'tick,0,ctl,1,mor'), [], 5,
        ['trace line 3: unknown event']),
    'trace_with_a_tick_twice': (
        'judge', CONTROL, rows_file('idle,0,,,', 'idle,0,,,'), [], 5, ['trace line 3: wrong tick']),
    'trace_with_a_later_first_tick': ('judge', CONTROL, rows_file('idle,1,,,'), [], 5, ['trace line 2: wrong tick']),
    'trace_with_the_header_alone': ('judge', CONTROL, rows_file(), [], 0, ['legal late 0']),
    'trace_of_runs_with_the_header_alone': ('judge', CONTROL, trace_file(), [], 0, ['legal late 0']),
    'trace_without_a_byte': ('judge', CONTROL, '', [], 5, ['trace line 1: header is of no trace version']),
    'a_hundred_million_idle_ticks': ('judge', CONTROL, ALL_IDLE, [], 0, ['legal late 0']),
    'a_tick_more_than_a_trace_has': (
        'judge', CONTROL, trace_file('idle,0,100000001,,,'), [], 5, ['trace line 2: more than 100000000 ticks']),
    'a_tick_more_in_a_record_of_its_own': (
        'judge', CONTROL, trace_file('idle,0,100000000,,,', 'idle,100000000,1,,,'), [], 5,
        ['trace line 3: more than 100000000 ticks']),
    'a_release_behind_the_last_tick': (
        'judge', CONTROL, trace_file('idle,0,100000000,,,', 'release,100000000,,ctl,1,kept'), [], 0, ['legal late 0']),
    'a_budget_reached_inside_a_run': (
        'judge', CONTROL, trace_file('release,0,,log,1,kept', 'tick,0,5,log,1,more'), [], 6,
        ['illegal row 6 wrong_how']),
    'a_low_budget_reached_inside_a_run': (
        'judge', CONTROL, trace_file('release,0,,ctl,1,kept', 'tick,0,6,ctl,1,more'), [], 6,
        ['illegal row 3 wrong_how']),
    'a_job_done_in_two_ticks_at_once': (
        'judge', CONTROL, trace_file('release,0,,ctl,1,kept', 'tick,0,2,ctl,1,done'), [], 5,
        ['trace line 3: bad length']),
    'a_low_release_after_an_idle_run': (
        'judge', CONTROL, trace_file(
            'release,0,,ctl,1,kept', 'tick,0,1,ctl,1,more', 'tick,1,1,ctl,1,over', 'tick,2,1,ctl,1,done', 'idle,3,7,,,',
            'release,10,,log,1,dropped'), [], 6, ['illegal row 12 wrong_kept']),
    'migrate': ('migrate', CONTROL, ROWS_OF_OVERRUN, [], 0, OVERRUN_AND_RETURN),
    'migrate_of_runs': ('migrate', CONTROL, OVERRUN_AND_RETURN, [], 0, OVERRUN_AND_RETURN),
    'migrate_of_runs_that_could_be_one': (
        'migrate', CONTROL, trace_file('idle,0,3,,,', 'idle,0000000003,01,,,', 'idle,4,9,,,'), [], 0,
        trace_file('idle,0,13,,,')),
    'migrate_of_an_illegal_trace': ('migrate', CONTROL, LOG_BEFORE_CTL, [], 6, ['illegal row 3 not_least']),
    'chart_past_its_limit': (
        'chart', CONTROL, ALL_IDLE, [], 5, ['trace has 100000000 ticks, a chart has at most 2000000']),
    'illegal_and_past_the_limit_of_a_chart': (
        'chart', CONTROL, trace_file('idle,0,100000000,,,', 'release,100000000,,ctl,2,kept'), [], 6,
        ['illegal row 100000001 wrong_count']),
    'no_live_ticks': ('live', CONTROL, '', ['0'], 2, [USAGE[:-1]]),
    'too_many_live_ticks': ('live', CONTROL, '', ['100001'], 2, [USAGE[:-1]]),
    'live_of_a_set_that_is_not_admitted': (
        'live', tree_of(low('tap', 2, 2), high('arm', 4, 1, 1)), '', ['10'], 1,
        ['not admitted: U_LL 1/1 U_HL 1/4 U_HH 1/4']),
    'no_ticks': ('run', CONTROL, work_file(), ['0'], 2, [USAGE[:-1]]),
    'too_many_ticks': ('run', CONTROL, work_file(), ['1000001'], 2, [USAGE[:-1]]),
    'avionics_check': (
        'check', AVIONICS, '', [], 0,
        ['tasks 8', 'U_LL 600007/1666700', 'U_HL 11/40', 'U_HH 67/100', 'rule virtual', 'x 916685/2133386']),
    'plain_rule_never_switches': (
        'run', PLAIN_PAIR, work_file('hi,0,2', 'lo,0,2'), ['4'], 0, trace_file(
            'release,0,,hi,1,kept', 'release,0,,lo,1,kept', 'tick,0,1,hi,1,more', 'tick,1,1,hi,1,done',
            'tick,2,1,lo,1,more', 'tick,3,1,lo,1,done')),
    'tasks_past_the_limit': (
        'check', tree_of(*[low(f't{number}', 200, 1) for number in range(129)]), '', [], 3,
        ['task file: 129 tasks, at most 128']),
    'name_of_32_bytes': (
        'check', tree_of(low('n' * 32, 2, 1)), '', [], 0,
        ['tasks 1', 'U_LL 1/2', 'U_HL 0/1', 'U_HH 0/1', 'rule plain']),
    'name_of_33_bytes': ('check', tree_of(low('n' * 33, 2, 1)), '', [], 3, ['task file: task 1: bad name']),
    'version_one': (
        'check', dict(CONTROL, version=1), '', [], 0,
        ['tasks 2', 'U_LL 1/2', 'U_HL 1/5', 'U_HH 3/5', 'rule virtual', 'x 2/5']),
    'version_three': ('check', dict(CONTROL, version=3), '', [], 3, ['task file: unknown version']),
    'soak_of_one_task': ('soak', None, '', ['7', '1', '100'], 2, [USAGE[:-1]]),
    'partition_on_two': ('partition', TAP_ARM_AND_LOG, '', ['2'], 0, ['processor 1 tap arm', 'processor 2 log']),
    'partition_on_one': ('partition', TAP_ARM_AND_LOG, '', ['1'], 12, ['not partitioned: task log fits on none of 1']),
    'partition_on_sixteen': (
        'partition', TAP_ARM_AND_LOG, '', ['16'], 0,
        ['processor 1 tap arm', 'processor 2 log'] + [f'processor {number}' for number in range(3, 17)]),
    # `c` goes back to the first processor, and not to the fuller second; so `e` still fits.
    'first_fit_and_not_best_fit': ('partition', FIVE_LOW_TASKS, '', ['2'], 0, ['processor 1 a c d', 'processor 2 b e']),
    'first_fit_goes_back': (
        'partition', tree_of(low('a', 10, 6), low('b', 10, 7), low('c', 10, 4)), '', ['3'], 0,
        ['processor 1 a c', 'processor 2 b', 'processor 3']),
    'the_first_of_two_and_not_the_fuller': (
        'partition', tree_of(low('a', 10, 5), low('b', 10, 7), low('c', 10, 3)), '', ['2'], 0,
        ['processor 1 a c', 'processor 2 b']),
    'refused_at_the_first_that_fits_nowhere': (
        'partition', tree_of(low('a', 10, 9), low('b', 10, 9), low('c', 10, 1), low('d', 10, 2), low('e', 10, 3)), '',
        ['2'], 12, ['not partitioned: task d fits on none of 2']),
    'parts_of_periods_out_of_range': (
        'partition', tree_of(low('a', 4294967295, 1), low('b', 4294967294, 1), low('c', 5, 1)), '', ['2'], 0,
        ['processor 1 a c', 'processor 2 b']),
    'a_part_by_the_scale_alone': (
        'partition', CONTROL, '', ['2'], 0, ['processor 1 ctl log', 'processor 2']),
    'partition_on_none': ('partition', CONTROL, '', ['0'], 2, [USAGE[:-1]]),
    'partition_on_seventeen': ('partition', CONTROL, '', ['17'], 2, [USAGE[:-1]]),
    'runall_on_two': (
        'runall', TAP_ARM_AND_LOG, TAP_ARM_AND_LOG_WORK, ['5', '2'], 0,
        'processor 1\n' + TAP_AND_ARM_TRACE + 'processor 2\n' + LOG_TRACE),
    'runall_on_three': (
        'runall', TAP_ARM_AND_LOG, TAP_ARM_AND_LOG_WORK, ['5', '3'], 0,
        'processor 1\n' + TAP_AND_ARM_TRACE + 'processor 2\n' + LOG_TRACE),
    'runall_of_work_that_is_refused_but_not_before_the_tasks': (
        'runall', TAP_ARM_AND_LOG, work_file('bob,0,1'), ['5', '1'], 12, ['not partitioned: task log fits on none of 1']),
    'runall_of_work_that_is_refused': (
        'runall', TAP_ARM_AND_LOG, work_file('bob,0,1'), ['5', '2'], 4, ['work file line 2: unknown task']),
    'runall_of_a_part_without_work': (
        'runall', TAP_ARM_AND_LOG, work_file('tap,0,1', 'arm,0,3', 'tap,2,1', 'tap,4,1'), ['5', '2'], 0,
        'processor 1\n' + TAP_AND_ARM_TRACE + 'processor 2\n' + trace_file('idle,0,5,,,')),
    'stretch_of_control': ('stretch', CONTROL, '', [], 0, ['stretch 149', 'U_HH 4/5 at 149', 'U_HH 9/10 at 150']),
    'stretch_of_tap_and_arm': (
        'stretch', TAP_AND_ARM, '', [], 0, ['stretch 133', 'U_HH 3/4 at 133', 'U_HH 1/1 at 134']),
    'stretch_of_none': (
        'stretch', tree_of(low('tap', 2, 2), high('arm', 4, 1, 1)), '', [], 0, ['stretch none', 'U_HH 1/4 at 0']),
    'stretch_below_the_files': (
        'stretch', tree_of(low('tap', 2, 1), high('arm', 100, 25, 100)), '', [], 0,
        ['stretch 75', 'U_HH 3/4 at 75', 'U_HH 19/25 at 76']),
    'stretch_to_the_greatest': (
        'stretch', tree_of(high('one', 1000, 1, 1)), '', [], 0, ['stretch 1000', 'U_HH 1/100 at 1000']),
    'stretch_of_low_tasks': ('stretch', tree_of(low('a', 2, 2)), '', [], 0, ['stretch 1000', 'U_HH 0/1 at 1000']),
    'stretch_to_the_greatest_budget': (
        'stretch', tree_of(high('big', MOST, 1, MOST)), '', [], 0, ['stretch 1000', 'U_HH 1/1 at 1000']),
    'stretch_by_the_low_budgets': (
        'stretch', tree_of(low('a', 10, 8), high('b', 10, 2, 3)), '', [], 0,
        ['stretch 99', 'U_HH 1/5 at 99', 'U_HH 3/10 at 100']),
    'stretch_of_periods_out_of_range': (
        'stretch', tree_of(low('a', 4294967295, 1), low('b', 4294967294, 1)), '', [], 3,
        ['task file: task 2: periods out of range']),
    'accept_of_no_sets': ('accept', None, '', ['1', '0', '8'], 2, [USAGE[:-1]]),
    'accept_of_too_many_sets': ('accept', None, '', ['1', '10001', '8'], 2, [USAGE[:-1]]),
    'accept_past_the_last_number': ('accept', None, '', [str(2 ** 64 - 1), '1', '8'], 2, [USAGE[:-1]]),
    'chart': ('chart', CONTROL, ROWS_OF_OVERRUN, [], 0, OVERRUN_DRAWN),
    'chart_of_runs': ('chart', CONTROL, OVERRUN_AND_RETURN, [], 0, OVERRUN_DRAWN),
    'report': ('report', CONTROL, ROWS_OF_OVERRUN, [], 0, OVERRUN_COUNTED),
    'report_of_runs': ('report', CONTROL, OVERRUN_AND_RETURN, [], 0, OVERRUN_COUNTED),
}

CONTROL_LOADS = ['tasks 2', 'U_LL 1/2', 'U_HL 1/5', 'U_HH 3/5', 'rule virtual']
PAIR_LOADS = ['tasks 2', 'U_LL 1/2', 'U_HL 1/4', 'U_HH 1/2']
PUMP_LOADS = ['U_HL 1/10', 'U_HH 3/5', 'rule virtual']
PAIR_WORK = work_file('hi,0,2', 'lo,0,2')
PAIR_BY_EDF = trace_file(
    'release,0,,hi,1,kept', 'release,0,,lo,1,kept', 'tick,0,1,hi,1,more', 'tick,1,1,hi,1,done', 'tick,2,1,lo,1,more',
    'tick,3,1,lo,1,done')
A_BEFORE_B = trace_file(
    'release,0,,a,1,kept', 'tick,0,2,a,1,more', 'release,2,,b,1,kept', 'tick,2,1,a,1,done', 'tick,3,1,b,1,done')

# The same, of sets with a scale of their own.
SCALED_EXAMPLES = {
    'scale_that_holds': ('check', with_scale(CONTROL, 2, 4), '', [], 0, CONTROL_LOADS + ['x 1/2']),
    'scale_that_does_not_hold': (
        'check', with_scale(CONTROL, 1, 1), '', [], 0, CONTROL_LOADS + ['x 2/5', 'scale 1/1 does not hold']),
    'published_scale': ('check', with_scale(CONTROL, 2, 5), '', [], 0, CONTROL_LOADS + ['x 2/5']),
    'greatest_scale_that_holds': ('check', with_scale(CONTROL, 4, 5), '', [], 0, CONTROL_LOADS + ['x 4/5']),
    'scale_just_below_the_least': (
        'check', with_scale(CONTROL, 399999999, 1000000000), '', [], 0,
        CONTROL_LOADS + ['x 2/5', 'scale 399999999/1000000000 does not hold']),
    'scale_just_above_the_greatest': (
        'check', with_scale(CONTROL, 800000001, 1000000000), '', [], 0,
        CONTROL_LOADS + ['x 2/5', 'scale 800000001/1000000000 does not hold']),
    'scale_shown_in_lowest_terms': (
        'check', with_scale(CONTROL, MOST, MOST), '', [], 0, CONTROL_LOADS + ['x 2/5', 'scale 1/1 does not hold']),
    'scale_in_place_of_plain_edf': (
        'check', with_scale(PLAIN_PAIR, 1, 2), '', [], 0, PAIR_LOADS + ['rule virtual', 'x 1/2']),
    'scale_that_does_not_hold_beside_plain_edf': (
        'check', with_scale(PLAIN_PAIR, 1, 4), '', [], 0, PAIR_LOADS + ['rule plain', 'scale 1/4 does not hold']),
    'scale_of_low_tasks_alone': (
        'check', with_scale(tree_of(low('a', 2, 1)), 1, MOST), '', [], 0,
        ['tasks 1', 'U_LL 1/2', 'U_HL 0/1', 'U_HH 0/1', 'rule virtual', 'x 1/4294967295']),
    'scale_of_a_set_that_is_not_admitted': (
        'check', with_scale(tree_of(low('tap', 2, 2), high('arm', 4, 1, 1)), 1, 2), '', [], 1,
        ['not admitted: U_LL 1/1 U_HL 1/4 U_HH 1/4']),
    'scale_of_periods_out_of_range': (
        'check', with_scale(tree_of(low('a', 4294967295, 1), low('b', 4294967294, 1)), 1, 2), '', [], 3,
        ['task file: task 2: periods out of range']),
    'version_two_without_a_scale': ('check', dict(CONTROL, version=2), '', [], 0, CONTROL_LOADS + ['x 2/5']),
    'certified': (
        'check', with_scale(PUMP_AND_SCREEN, 2, 5), '', [], 0, ['tasks 2', 'U_LL 3/5'] + PUMP_LOADS + ['x 2/5']),
    'certified_and_grown': (
        'check', with_scale(PUMP_SCREEN_AND_LOG, 2, 5), '', [], 0, ['tasks 3', 'U_LL 7/10'] + PUMP_LOADS + ['x 2/5']),
    'certified_and_outgrown': (
        'check', with_scale(PUMP_SCREEN_LOG_AND_NET, 2, 5), '', [], 0,
        ['tasks 4', 'U_LL 4/5'] + PUMP_LOADS + ['x 1/2', 'scale 2/5 does not hold']),
    'certified_run': ('run', with_scale(PUMP_AND_SCREEN, 2, 5), PUMP_WORK, ['16'], 0, PUMP_BY_TWO_FIFTHS),
    'certified_run_of_the_grown_set': (
        'run', with_scale(PUMP_SCREEN_AND_LOG, 2, 5), PUMP_WORK, ['16'], 0, PUMP_BY_TWO_FIFTHS),
    'certified_run_by_the_published_scale': ('run', PUMP_AND_SCREEN, PUMP_WORK, ['16'], 0, PUMP_BY_A_QUARTER),
    'certified_run_of_the_outgrown_set': (
        'run', with_scale(PUMP_SCREEN_LOG_AND_NET, 2, 5), PUMP_WORK, ['16'], 0, PUMP_BY_ONE_HALF),
    'certified_trace_of_the_outgrown_set': (
        'judge', with_scale(PUMP_SCREEN_LOG_AND_NET, 2, 5), PUMP_BY_TWO_FIFTHS, [], 6, ['illegal row 4 not_least']),
    'run_by_a_scale': (
        'run', with_scale(PLAIN_PAIR, 1, 2), PAIR_WORK, ['4'], 0, trace_file(
            'release,0,,hi,1,kept', 'release,0,,lo,1,kept', 'tick,0,1,hi,1,over', 'tick,1,1,hi,1,done', 'idle,2,2,,,')),
    'run_by_plain_edf_beside_a_scale': ('run', with_scale(PLAIN_PAIR, 1, 4), PAIR_WORK, ['4'], 0, PAIR_BY_EDF),
    'judge_by_a_scale': ('judge', with_scale(QUARTER_SCALE, 1, 2), A_BEFORE_B, [], 0, ['legal late 0']),
    'judge_by_the_published_scale': ('judge', QUARTER_SCALE, A_BEFORE_B, [], 6, ['illegal row 5 not_least']),
    'judge_by_the_words_and_not_by_the_scale': (
        'judge', with_scale(QUARTER_SCALE, 1, 2), A_BEFORE_B, ['1', '4'], 6, ['illegal row 5 not_least']),
    'report_by_a_scale': (
        'report', with_scale(QUARTER_SCALE, 1, 2), A_BEFORE_B, [], 0,
        ['task a released 1 kept 1 dropped 0 discarded 0 done 1 stopped 0 ticks 3 response 3',
         'task b released 1 kept 1 dropped 0 discarded 0 done 1 stopped 0 ticks 1 response 2', 'idle 0', 'switches 0']),
    'chart_by_the_published_scale': (
        'chart', dict(QUARTER_SCALE, version=2), A_BEFORE_B, [], 6, ['illegal row 5 not_least']),
    'migrate_by_a_scale': ('migrate', with_scale(QUARTER_SCALE, 1, 2), A_BEFORE_B, [], 0, A_BEFORE_B),
    'partition_asks_for_no_scale': (
        'partition', with_scale(TAP_ARM_AND_LOG, 1, 1), '', ['2'], 0, ['processor 1 tap arm', 'processor 2 log']),
    'runall_asks_for_no_scale': (
        'runall', with_scale(PLAIN_PAIR, 1, 2), PAIR_WORK, ['4', '1'], 0, 'processor 1\n' + PAIR_BY_EDF),
    'stretch_asks_for_no_scale': (
        'stretch', with_scale(CONTROL, 1, 2), '', [], 0, ['stretch 149', 'U_HH 4/5 at 149', 'U_HH 9/10 at 150']),
}

# Task files, as what is at their top besides or in place of the tasks of the control set, with the refusal. Where a tree
# has two faults, the first in the order of the format is reported.
NO_TABLE = {'task': {}}
WIDE = 2 ** 63
REFUSED_TOPS = {
    'scale_without_a_version': ({'scale': [1, 2]}, 'unknown key scale'),
    'scale_in_version_one': ({'version': 1, 'scale': [1, 2]}, 'unknown key scale'),
    'scale_in_a_version_that_is_text': ({'version': '2', 'scale': [1, 2]}, 'unknown key scale'),
    'scale_in_an_unknown_version': ({'version': 3, 'scale': [3, 2]}, 'unknown key scale'),
    'no_document_before_the_keys': ({'version': 1, 'scale': [1, WIDE]}, 'not TOML'),
    'the_first_key_before_the_scale': ({'ratio': 1, 'scale': [1, 2]}, 'unknown key ratio'),
    'a_key_before_the_version': ({'version': 3, 'zone': 1}, 'unknown key zone'),
    'a_key_before_the_scale_of_version_two': ({'version': 2, 'scale': 1, 'zone': 1}, 'unknown key zone'),
    'version_three': ({'version': 3}, 'unknown version'),
    'version_two_and_a_point': ({'version': 2.0}, 'unknown version'),
    'version_before_the_tasks': ({'version': 0, 'task': []}, 'unknown version'),
    'scale_as_a_number': ({'version': 2, 'scale': 1}, 'task 0: wrong kind of scale'),
    'scale_as_a_text': ({'version': 2, 'scale': '1/2'}, 'task 0: wrong kind of scale'),
    'scale_of_one_number': ({'version': 2, 'scale': [1]}, 'task 0: wrong kind of scale'),
    'scale_of_three_numbers': ({'version': 2, 'scale': [1, 2, 2]}, 'task 0: wrong kind of scale'),
    'scale_of_texts': ({'version': 2, 'scale': [1, '2']}, 'task 0: wrong kind of scale'),
    'scale_with_a_point': ({'version': 2, 'scale': [1.0, 2]}, 'task 0: wrong kind of scale'),
    'kind_before_range': ({'version': 2, 'scale': [0, '2']}, 'task 0: wrong kind of scale'),
    'kind_before_tasks': ({'version': 2, 'scale': [], 'task': []}, 'task 0: wrong kind of scale'),
    'scale_above_one': ({'version': 2, 'scale': [3, 2]}, 'task 0: out of range scale'),
    'scale_of_zero': ({'version': 2, 'scale': [0, 2]}, 'task 0: out of range scale'),
    'scale_below_zero': ({'version': 2, 'scale': [-2, -1]}, 'task 0: out of range scale'),
    'scale_past_32_bits': ({'version': 2, 'scale': [1, MOST + 1]}, 'task 0: out of range scale'),
    'range_before_no_tasks': ({'version': 2, 'scale': [3, 2], 'task': []}, 'task 0: out of range scale'),
    'range_before_the_kind_of_tasks': ({'version': 2, 'scale': [3, 2], **NO_TABLE}, 'task 0: out of range scale'),
    'no_tasks_beside_a_scale': ({'version': 2, 'scale': [1, 2], 'task': []}, 'no tasks'),
    'no_array_of_tasks': ({'version': 2, 'scale': [1, 2], **NO_TABLE}, 'task 0: wrong kind of task'),
    'a_task_before_the_set': (
        {'version': 2, 'task': 128 * [low('a', 1, 1)] + [low('a', 0, 1)]}, 'task 129: out of range period'),
    'the_set_beside_a_scale': (
        {'version': 2, 'scale': [1, 2], 'task': 2 * [low('a', 2, 1)]}, 'tasks 1 and 2 have one name'),
}

# Records after the header of version 2, and the refusal of the file, whose number of the line and cause are those of
# the first record with a fault, and of its faults the first in the order of the format.
REFUSED_TRACES = {
    'a_record_of_version_1': (['idle,0,,,'], '2: not six fields'),
    'a_release_with_a_length': (['release,0,1,ctl,1,kept'], '2: unknown event'),
    'an_idle_record_with_a_task': (['idle,0,1,ctl,,'], '2: unknown event'),
    'a_tick_that_is_kept': (['tick,0,1,ctl,1,kept'], '2: unknown event'),
    'an_event_before_a_task': (['ticks,0,1,bob,1,more'], '2: unknown event'),
    'a_task_before_a_number': (['tick,0,,bob,1,more'], '2: unknown task'),
    'a_tick_without_a_length': (['tick,0,,ctl,1,more'], '2: bad number'),
    'an_idle_record_without_a_length': (['idle,0,,,,'], '2: bad number'),
    'a_length_of_eleven_digits': (['idle,0,00000000001,,,'], '2: bad number'),
    'a_length_past_32_bits': (['idle,0,4294967296,,,'], '2: bad number'),
    'a_number_before_a_tick': (['tick,1,1,ctl,x,more'], '2: bad number'),
    'a_tick_before_a_length': (['tick,1,0,ctl,1,more'], '2: wrong tick'),
    'a_tick_that_counts_records': (['idle,0,5,,,', 'idle,1,1,,,'], '3: wrong tick'),
    'no_ticks_at_once': (['idle,0,0,,,'], '2: bad length'),
    'two_stops_at_once': (['tick,0,2,ctl,1,stop'], '2: bad length'),
    'two_overruns_at_once': (['tick,0,2,ctl,1,over'], '2: bad length'),
    'a_length_before_the_ticks': (['tick,0,100000001,ctl,1,done'], '2: bad length'),
    'the_ticks_before_the_next_record': (['idle,0,100000001,,,', 'idle'], '2: more than 100000000 ticks'),
}

# Rows as records of version 1, and the verdict on them for the control set under its test's rule.
VERDICTS = {
    'too_soon_release': (
        ['release,0,log,1,kept', 'tick,0,log,1,done', 'release,1,log,2,kept'], 'illegal row 3 too_soon'),
    'wrong_count_of_a_first_release': (['release,0,ctl,2,kept'], 'illegal row 1 wrong_count'),
    'high_release_dropped': (['release,0,ctl,1,dropped'], 'illegal row 1 wrong_kept'),
    'tick_without_a_release': (['tick,0,ctl,1,more'], 'illegal row 1 not_pending'),
    'not_least_tick': (
        ['release,0,ctl,1,kept', 'release,0,log,1,kept', 'tick,0,log,1,more'], 'illegal row 3 not_least'),
    'low_budget_passed_without_an_overrun': (
        ['release,0,ctl,1,kept', 'tick,0,ctl,1,more', 'tick,1,ctl,1,more'], 'illegal row 3 wrong_how'),
    'idle_with_a_pending_job': (['release,0,ctl,1,kept', 'idle,0,,,'], 'illegal row 2 idle_pending'),
    'low_job_after_switch': (
        ['release,0,ctl,1,kept', 'release,0,log,1,kept', 'tick,0,ctl,1,more', 'tick,1,ctl,1,over', 'tick,2,log,1,more'],
        'illegal row 5 not_pending'),
    'dropped_after_the_return': (
        ['release,0,ctl,1,kept', 'tick,0,ctl,1,more', 'tick,1,ctl,1,over', 'tick,2,ctl,1,done', 'idle,3,,,',
         'release,4,log,1,dropped'], 'illegal row 6 wrong_kept'),
    'overrun_of_a_low_job': (
        ['release,0,log,1,kept', 'tick,0,log,1,more', 'tick,1,log,1,more', 'tick,2,log,1,more', 'tick,3,log,1,more',
         'tick,4,log,1,over'], 'illegal row 6 wrong_how'),
    'kept_low_release_in_high_mode': (
        ['release,0,ctl,1,kept', 'tick,0,ctl,1,more', 'tick,1,ctl,1,over', 'release,2,log,1,kept'],
        'illegal row 4 wrong_kept'),
    'tick_after_the_end': (
        ['release,0,log,1,kept', 'tick,0,log,1,done', 'tick,1,log,1,more'], 'illegal row 3 not_pending'),
    'done_below_the_budget': (['release,0,ctl,1,kept', 'tick,0,ctl,1,done', 'idle,1,,,'], 'legal late 0'),
}

LIVE_CONTROL = [
    'release,0,,ctl,1,kept', 'release,0,,log,1,kept', 'tick,0,1,ctl,1,more', 'tick,1,1,ctl,1,done',
    'tick,2,4,log,1,more', 'tick,6,1,log,1,done', 'idle,7,3,,,']
# The jobs of ctl alone, each with its low budget except the fourth, which passes it and has its high one.
FOUR_JOBS = [
    line for count, at in enumerate([0, 10, 20, 30], 1) for line in [f'release,{at},,ctl,{count},kept'] + (
        [f'tick,{at},1,ctl,{count},more', f'tick,{at + 1},1,ctl,{count},done', f'idle,{at + 2},8,,,'] if count < 4 else
        ['tick,30,1,ctl,4,more', 'tick,31,1,ctl,4,over', 'tick,32,3,ctl,4,more', 'tick,35,1,ctl,4,done'])]
FOURTH_DONE_EARLY = FOUR_JOBS[:-4] + ['tick,30,1,ctl,4,more', 'tick,31,1,ctl,4,done']
ONE_TASK = [
    'release,0,,a,1,kept', 'tick,0,1,a,1,done', 'release,1,,a,2,kept', 'tick,1,1,a,2,done', 'release,2,,a,3,kept',
    'tick,2,1,a,3,done']

LO_BEFORE_HI = [
    'release,0,,hi,1,kept', 'release,0,,lo,1,kept', 'tick,0,1,lo,1,more', 'tick,1,1,lo,1,done', 'tick,2,1,hi,1,done']

# Set, ticks, text, and what is wrong with it.
LIVE_TEXTS = {
    'live_control': (CONTROL, 10, trace_file(*LIVE_CONTROL), None),
    'live_one_task': (tree_of(low('a', 1, 1)), 3, trace_file(*ONE_TASK), None),
    'live_four_jobs': (CONTROL, 36, trace_file(*FOUR_JOBS), None),
    'live_fourth_job_done_early': (CONTROL, 32, trace_file(*FOURTH_DONE_EARLY), 'job 4 of task 1 not by its need'),
    'live_stop_at_the_need': (
        tree_of(low('a', 1, 1)), 1, trace_file('release,0,,a,1,kept', 'tick,0,1,a,1,stop'),
        'job 1 of task 1 not by its need'),
    'live_past_its_ticks': (CONTROL, 9, trace_file(*LIVE_CONTROL), '10 ticks'),
    'live_with_a_release_at_the_end': (
        CONTROL, 10, trace_file(*LIVE_CONTROL, 'release,10,,ctl,2,kept'), 'a release at the end'),
    'live_not_in_fewest_records': (
        CONTROL, 2, trace_file('idle,0,1,,,', 'idle,1,1,,,'), 'not the text of its runs'),
    'live_illegal': (CONTROL, 1, trace_file('release,0,,ctl,1,kept', 'idle,0,1,,,'), 'illegal row 2 idle_pending'),
    'live_in_version_1': (CONTROL, 1, rows_file('idle,0,,,'), 'not the text of its runs'),
    'live_by_plain_edf': (PLAIN_PAIR, 3, trace_file(*LO_BEFORE_HI), None),
    'live_against_its_scale': (with_scale(PLAIN_PAIR, 1, 2), 3, trace_file(*LO_BEFORE_HI), 'illegal row 3 not_least'),
}

# Demand files, by their records after the header, with the status and the output for each. The sets named buttazzo are
# those of Buttazzo, Hard Real-Time Computing Systems, on EDF with deadlines below periods, and one with a tick more;
# those named burns are those of Burns and Wellings, Real-Time Systems and Programming Languages, on deadline-monotonic
# priorities, with ever more for the last task. What lengths ask for was added up by hand.
DEMAND_FILES = {
    'schedulable': (['a,4,2,1', 'b,6,3,2'], 0, ['schedulable, demand checked to 12']),
    'not_schedulable': (['a,4,2,1', 'b,6,3,3'], 10, [
        'not schedulable: demand 4 in length 3', 'release a 1 at 0', 'release b 1 at 0', 'tick 0 a 1', 'tick 1 b 1',
        'tick 2 b 1', 'late b 1']),
    'ties_to_the_lowest_number': (['z,4,4,1', 'a,2,2,1', 'b,4,4,1', 'c,4,3,2'], 10, [
        'not schedulable: demand 6 in length 4', 'release z 1 at 0', 'release a 1 at 0', 'release b 1 at 0',
        'release c 1 at 0', 'tick 0 a 1', 'tick 1 c 1', 'release a 2 at 2', 'tick 2 c 1', 'tick 3 z 1', 'late b 1']),
    'past_at_the_least_common_multiple': (['a,2,2,1', 'b,3,3,1', 'c,6,6,2'], 10, [
        'not schedulable: demand 7 in length 6', 'release a 1 at 0', 'release b 1 at 0', 'release c 1 at 0',
        'tick 0 a 1', 'tick 1 b 1', 'release a 2 at 2', 'tick 2 a 2', 'release b 2 at 3', 'tick 3 b 2',
        'release a 3 at 4', 'tick 4 a 3', 'tick 5 c 1', 'late c 1']),
    'budget_above_any_length': (['a,1,1,4294967295'], 10, [
        'not schedulable: demand 4294967295 in length 1', 'release a 1 at 0', 'tick 0 a 1', 'late a 1']),
    'full_use': (['a,2,2,1', 'b,3,3,1', 'c,6,6,1'], 0, ['schedulable, demand checked to 6']),
    'buttazzo': (['a,6,4,2', 'b,8,5,2', 'c,9,7,3'], 0, ['schedulable, demand checked to 72']),
    'burns': (['a,20,5,3', 'b,15,7,3', 'c,10,10,4', 'd,20,20,3'], 0, ['schedulable, demand checked to 60']),
    'deadline_above_the_period': (['a,4,5,1'], 11, ['demand file line 2: deadline after period']),
    'no_demand_tasks': ([], 11, ['demand file line 1: no tasks']),
    'not_four_fields': (['a,4,2,1', 'b,4,2'], 11, ['demand file line 3: not four fields']),
    'bad_demand_name': (['a b,4,x,1'], 11, ['demand file line 2: bad name']),
    'name_used_before': (['a,4,2,1', 'a,4,x,1'], 11, ['demand file line 3: name used before']),
    'bad_demand_number': (['a,0,2,4294967296'], 11, ['demand file line 2: bad number']),
    'number_is_0': (['a,4,5,0'], 11, ['demand file line 2: number is 0']),
    'demand_periods_out_of_range': (['a,1000,1,1', 'b,501,1,1'], 11, ['demand file line 3: periods out of range']),
    'too_many_demands': ([f't{number},1,1,1' for number in range(128)] + ['t0'], 11, [
        'demand file line 130: more than 128 tasks']),
}

# What some lengths ask for: of the first set at each of its deadlines up to 25 and before some of them; of others the least
# length that asks for more than it is.
DEMANDS = [
    (['a,6,4,2', 'b,8,5,2', 'c,9,7,3'],
     {3: 0, 4: 2, 5: 4, 6: 4, 7: 7, 10: 9, 13: 11, 16: 16, 21: 18, 22: 20, 25: 23}),
    (['a,6,4,2', 'b,8,5,2', 'c,9,7,4'], {7: 8}),
    (['a,20,5,3', 'b,15,7,3', 'c,10,10,4', 'd,20,20,5'], {40: 41}),
    (['a,20,5,3', 'b,15,7,3', 'c,10,10,4', 'd,20,20,6'], {22: 23}),
    (['a,20,5,3', 'b,15,7,3', 'c,10,10,4', 'd,20,20,7'], {20: 21}),
]

# The first words of the published sample program of PCG's generator, of seed 42 and stream 54.
PUBLISHED_WORDS = [0xa15c02b7, 0x7b47f409, 0xba1d3330, 0x83d2f293, 0xbfa4784b, 0xcbed606e]


# Each example by name, what came out, and what is written here.
def examples():
    for name, (command, tree, second, words, status, wanted) in {**EXAMPLES, **SCALED_EXAMPLES}.items():
        text = wanted if isinstance(wanted, str) else lines(wanted)
        yield name, answer(command, tree, second, words), (status, text)
        if command == 'run' and status == 0:
            task_set = read_set(tree)
            tasks, work, end = task_set.tasks, read_work(task_set.tasks, second), int(words[0])
            yield f'{name}, held', follows(tasks, test(task_set), work, end, read_trace(tasks, text)), True
    for name, (top, fault) in REFUSED_TOPS.items():
        yield name, answer('check', {**CONTROL, **top}), (3, f'task file: {fault}\n')
    for name, (records, fault) in REFUSED_TRACES.items():
        yield name, answer('judge', CONTROL, trace_file(*records)), (5, f'trace line {fault}\n')
    for name, (records, line) in VERDICTS.items():
        wanted = 0 if line == 'legal late 0' else 6, line + '\n'
        yield name, answer('judge', CONTROL, rows_file(*records)), wanted
        yield f'{name}, by runs', answer('judge', CONTROL, trace_file(*with_lengths(records))), wanted
        packed = trace_text(read_tasks(CONTROL), read_trace(read_tasks(CONTROL), rows_file(*records)))
        yield f'{name}, by fewest runs', answer('judge', CONTROL, packed), wanted
    yield 'published_words', list(islice(pcg_words(42, 54), len(PUBLISHED_WORDS))), PUBLISHED_WORDS
    yield from avionics_examples()
    yield from soak_examples()
    yield from wide_examples()
    yield from live_examples()
    yield from demand_examples()
    yield from accept_examples()


def avionics_examples():
    status, text = answer('run', AVIONICS, AVIONICS_WORK, ['20000'])
    yield 'avionics_run', (status, len(text.splitlines())), (0, 40)
    yield 'avionics_verdict', answer('judge', AVIONICS, text), (0, 'legal late 0\n')
    yield 'avionics_report', answer('report', AVIONICS, text), (0, AVIONICS_REPORT)


def soak_examples():
    status, text = answer('soak', words=['7', '8', '20000'])
    told = text.splitlines()
    yield 'soak', (status, told[0], told[-1]), (0, 'soak 7 8 20000', 'legal late 0')
    numbers = told[3].split()
    yield 'soak_ticks', int(numbers[1]) + int(numbers[3]), 20000


# A chart of as many ticks as there may be.
def wide_examples():
    drawn = ['ctl    ' + MOST_CHART_TICKS * '.', 'log    ' + MOST_CHART_TICKS * '.', '(mode) ' + MOST_CHART_TICKS * 'L']
    text = trace_file(f'idle,0,{MOST_CHART_TICKS},,,')
    yield 'chart_at_its_limit', answer('chart', CONTROL, text) == (0, lines(drawn)), True


# Texts of live traces, and what is wrong with them.
def live_examples():
    for name, (tree, count, text, fault) in LIVE_TEXTS.items():
        yield name, live_fault(read_set(tree), count, text), fault


def demand_examples():
    for name, (records, status, told) in DEMAND_FILES.items():
        yield name, answer('demand', second=demand_file(*records)), (status, lines(told))
    for number, (records, asked) in enumerate(DEMANDS, 1):
        demands = read_demands(demand_file(*records))
        yield f'demand_{number}', {length: demand(demands, length) for length in asked}, asked
        past = min((length for length in asked if asked[length] > length), default=None)
        yield f'least_length_{number}', first_past(demands), past


def accept_examples():
    status, text = answer('accept', words=['1', '50', '8'])
    counts = [int(line.split()[1]) for line in text.splitlines()]
    yield 'accept', (status, text.splitlines()[0], len(counts), counts), (0, '100 50', 11, sorted(counts, reverse=True))
    parts = [accept_text(number, 10, 5) for number in (18, 28)]
    added = [sum(int(line.split()[1]) for line in pair) for pair in zip(*(part.splitlines() for part in parts))]
    yield 'accept_by_parts', [int(line.split()[1]) for line in accept_text(18, 20, 5).splitlines()], added


def main(words):
    numbers(words)
    count = failed = 0
    for name, found, wanted in examples():
        count += 1
        if found != wanted:
            failed += 1
            print(f'{name}: {found}, and {wanted} is written')
    print(f'model: {count} examples, {failed} failed')
    return 1 if failed else 0


if __name__ == '__main__':
    ends(main, __doc__)
