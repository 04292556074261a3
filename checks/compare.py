"""Compares the program with model.py, which was written from the rules alone, on cases that are made by a seed.

A case is a command, its files and its words. There are sets whose loads are about 1 or exactly 1, also with periods at the
limits; random work; legal traces of a few ticks or up to a hundred million, with random choices; such traces cut short or
with a spoilt row, and traces by scales that do not hold; generated workloads; sets for several processors; sets with a scale
of their own, which holds or does not; and files that are refused. A trace is of either version. Mostly it is given a second
time as another text: in the other version, in the fewest runs, or in runs cut at random. The answer must be the same. The model
judges a whole run at once, and its verdict is compared with the one that it finds row by row.

The status and the whole text must be the model's, standard error must be empty, and no job may be late under a rule that
holds. `live` may write many texts, and the model says whether the text is one of them. The script counts what came up in the
cases. With the default number of cases or more, it also fails if one of STATUSES or OUTCOMES never came up, since it then
shows less than it says. It keeps the files of cases that differ, and prints their names.

usage: compare.py PROGRAM [CASES [SEED]]
"""

# Can the comparison find a fault? By hand, the model was made wrong in one way at a time, and compared with the right model on the default
# cases, up to the first one that differs. Each of 120 ways was found; these are some, each with that case:
# - virtual deadlines rounded up to whole ticks, or down: 364, 62
# - virtual keys kept after a switch: 47
# - a switch one tick late; low jobs kept after it; low releases kept in high mode; the mode kept high after an idle tick: 19
# - `<` for `<=` in the test of EDF; the test in floating point: 10, 8
# - periods up to 2^61: 242
# - ties of keys to the highest number: 26
# - `<` for `<=` at the last deadline that counts: 65
# - a low job that is discarded in the tick of its deadline: 1066
# - the job's number checked before the separation: 158
# - a response one tick less: 82
# - a run judged by its first row only; a budget checked only at a run's last tick: 66
# - row numbers counted in runs: 52
# - a run that counts as one tick of its job: 19
# - low mode that returns at the end of an idle run: 71
# - idle neighbours not written as one: 19
# - exactly 100,000,000 ticks refused: 144
# - a length of 0 accepted; `done` with a length above 1 accepted: 387, 1493
# - the length checked before the tick: 489
# - a demand without the jobs due at the end of the length; with one job of each task less; with one more: 3816, 3816, 3803
# - a length that is asked for in full taken as too short: 3809
# - demand checked from length 2 on; up to one length before the last: 3816, 3822
# - a counterexample whose ties go to the highest number; whose later releases come a tick late: 3816, 3822
# - best fit, next fit, the last that fits; parts by EDF alone; parts out of range accepted: 4024, 4007, 4001; 4002; 4010
# - the whole set checked for the range, or by the test: 4022, 4002
# - the task that is named is the first that fits on no processor alone; the one before: 4041, 4002
# - a part's work under the numbers of the whole set; with the rows of another; in another order: 4008
# - traces under the rule of the first processor; under plain EDF; processors the other way round: 4008
# - the work file read before first fit is tried: 4111
# - a stretch rounded up; without the greatest number, or without the low budget as a bound; low tasks stretched, too: 4014; 4036, 4017;
#   4014
# - stretches up to 999 or 1001; from 1; one less; by EDF alone: 4015; 4098; 4014; 4014
# - `>` for "at least" in the table; the first or the last set left out; from NUMBER + 1; one set twice: 4040; 4020; 4040; 4020
# - a set's scale ignored; tried after the published test, or after plain EDF: 4418
# - a scale that does not hold used; the set refused for it: 4403; 4406
# - `<` for `<=` in the low mode of a scale, or in the high mode; one of the two not checked: 4405, 4485; 4403, 4414
# - a scale upside down; kept as it stands in the file: 4405; 4414
# - no line of a scale that does not hold; one of each scale; none with plain EDF: 4414; 4405; 4426
# - a scale of version 1 accepted; three numbers accepted; 4,294,967,296, a 0, or a scale above 1 accepted; 1/1 refused: 4421; 4576;
#   4454, 4411, 4493; 4402
# - the version checked before the keys; the tasks before the scale; its range before its kind: 4404; 4625; 4466
# - one of `run`, `judge` and the commands that draw by the published test alone; `judge` with `P Q` or `runall` by the set's scale:
#   4492, 4462, 4559; 4413, 4450

import collections
import json
import math
import re
from fractions import Fraction
from typing import NamedTuple, Optional

import with_tools
import model
from cases import Dice, Runner, keep, program_count_seed, tell
from model import (
    DONE, DROPPED, EVENTS, HIGH, IDLE, KEPT, LOW, MORE, MOST, MOST_TICKS, OVER, PLAIN, RELEASES, STOP, TICKS,
    TRACE_HEADERS, Demand, Job, Run, Scale, Task, TaskSet, Trace, Work, demand_file, rows_of, run_fields, with_before)
from usage import ends

DEFAULT_CASES = 4800


class Case(NamedTuple):
    command: str
    tree: Optional[dict]  # of the task file
    second: Optional[str]  # the text of the second file; of `demand`, of its one file
    words: list
    twin: Optional[str] = None  # the second file's trace as another text

    def form(self):
        return 'judge by a scale' if self.command == 'judge' and self.words else self.command


def chance(dice, times, of):
    return dice.below(of) < times


def between(dice, least, most):
    return least + dice.below(most - least + 1)


def shuffled(dice, items):
    return sorted(items, key=lambda _: dice.random.random())


# ---- Sets ----

PERIODS = [range(1, 7), range(2, 13), [4, 5, 10, 20], [3, 6, 8, 12, 24], [7, 9, 11, 13], range(10, 41)]
PERIODS_OF_MANY = [128, 160, 192, 240, 256, 320]
PRIME_POWERS = [2 ** 31, 2 ** 30, 3 ** 20, 3 ** 18, 5 ** 13, 7 ** 11, 11 ** 9, 65537, 2 ** 16, 5, 7]
STEMS = ['t', 't', 'ctl', 'log_', 'A-', 'long-name', 'n' * 29]


def budgets(dice, periods, hundredths):
    """A budget for each period, so that together they load the processor by about this number of hundredths."""
    weights = [between(dice, 1, 8) for _ in periods]
    return [
        min(MOST, max(1, period * hundredths * weight // (100 * sum(weights))))
        for period, weight in zip(periods, weights)]


def task(dice, number, level, period, own):
    low = own if level == LOW else between(dice, 1, max(1, own // dice.one_of([1, 2, 4])))
    return Task(f'{dice.one_of(STEMS)}{number}', level, period, low, own)


def tasks_of(dice, periods, most=110):
    """Tasks of these periods, with loads of up to `most` hundredths."""
    highs = [period for period in periods if chance(dice, 1, 2)]
    lows = list((collections.Counter(periods) - collections.Counter(highs)).elements())
    high_budgets = budgets(dice, highs, between(dice, 30, most))
    low_budgets = budgets(dice, lows, between(dice, 10, most - 30))
    owns = [(HIGH, *own) for own in zip(highs, high_budgets)] + [(LOW, *own) for own in zip(lows, low_budgets)]
    return [task(dice, number, *own) for number, own in enumerate(shuffled(dice, owns), 1)]


def small_tasks(dice, most=110):
    """One to five tasks, or once in a while many."""
    if chance(dice, 1, 50):
        return tasks_of(dice, [dice.one_of(PERIODS_OF_MANY) for _ in range(between(dice, 20, 127))], most)
    periods = dice.one_of(PERIODS)
    return tasks_of(dice, [dice.one_of(periods) for _ in range(between(dice, 1, 5))], most)


def with_task(dice, tasks, level, period, low, high):
    """The tasks and one more, whose high budget is mostly the given one; without it where it is no task."""
    high += dice.one_of([-1, 0, 0, 1])
    low = high if level == LOW else low
    if not 1 <= low <= high <= MOST or period > MOST:
        return tasks
    return shuffled(dice, tasks + [Task(f'one-{len(tasks) + 1}', level, period, low, high)])


def multiple_of(tasks):
    return math.lcm(*(task.period for task in tasks))


def loaded_to_one(dice, tasks):
    """The tasks and one more, with which U_LL + U_HH is 1, or one tick of its period beside it."""
    low_low, _, high_high = model.loads(tasks)
    period = multiple_of(tasks) * between(dice, 1, 3)
    high = int((1 - low_low - high_high) * period)
    return with_task(dice, tasks, dice.one_of([LOW, HIGH]), period, between(dice, 1, max(1, high)), high)


def scaled_to_one(dice, tasks):
    """The tasks and a high one, with which x*U_LL + U_HH is 1, or one tick of its period beside it."""
    low_low, high_low, high_high = model.loads(tasks)
    if low_low >= 1:
        return tasks
    factor = low_low / (1 - low_low)  # x*U_LL is U_HL times this
    period = multiple_of(tasks) * factor.denominator * between(dice, 1, 3)
    low = factor.denominator * between(dice, 1, 4)
    high = (1 - high_high - (high_low + Fraction(low, period)) * factor) * period
    return with_task(dice, tasks, HIGH, period, low, int(high))


def beside_one(dice):
    """Two tasks of large periods T and S, whose own budgets load 1 - 1/(T*S) or 1 + 1/(T*S)."""
    first, second = between(dice, 2 ** 20, 2 ** 30), between(dice, 2 ** 20, 2 ** 30)
    if math.gcd(first, second) > 1:
        return beside_one(dice)
    side = dice.one_of([-1, 1])
    budget = side * pow(second, -1, first) % first
    rest = (first * second + side - budget * second) // first
    return [
        task(dice, number, dice.one_of([LOW, HIGH]), period, own)
        for number, (period, own) in enumerate([(first, budget), (second, rest)], 1)]


def huge_periods(dice):
    """Periods near the greatest one, and such that their least common multiple is near 2^60."""
    if chance(dice, 1, 4):
        return [MOST - dice.below(3)] * between(dice, 1, 4)
    if chance(dice, 1, 3):
        return [dice.one_of(PRIME_POWERS) for _ in range(between(dice, 2, 4))]
    periods = [dice.one_of([between(dice, 2 ** 28, MOST), between(dice, 2 ** 12, 2 ** 20)]), between(dice, 2, 2 ** 16)]
    last = 2 ** 60 // math.lcm(*periods) + between(dice, -2, 2)
    return periods + [min(max(1, last), MOST)] + periods[:dice.below(3)]


def huge_tasks(dice):
    if chance(dice, 1, 4):
        return beside_one(dice)
    tasks = tasks_of(dice, huge_periods(dice))
    return loaded_to_one(dice, tasks) if multiple_of(tasks) <= MOST else tasks


def small_or_at_one(dice):
    tasks = small_tasks(dice)
    few = tasks[:between(dice, 1, 3)]
    return dice.one_of([tasks, tasks, loaded_to_one(dice, few), scaled_to_one(dice, few)])


def any_tasks(dice):
    return huge_tasks(dice) if chance(dice, 1, 3) else small_or_at_one(dice)


def admitted_tasks(dice):
    """Tasks that the test admits, mostly with a scale."""
    rules = dice.one_of([['virtual'], ['virtual'], ['virtual'], ['plain', 'virtual']])
    while True:
        tasks = huge_tasks(dice) if chance(dice, 1, 12) else small_or_at_one(dice)
        rule = model.published(tasks)
        if rule is not None and rule.name in rules and model.out_of_range(tasks) is None:
            return tasks


def mostly_admitted(dice):
    return any_tasks(dice) if chance(dice, 1, 8) else admitted_tasks(dice)


def for_a_scale(dice):
    """Tasks that load up to 2, so that jobs are late and wait beside others of their task, or any."""
    return dice.one_of(2 * [lambda: small_tasks(dice, 200)] + [lambda: any_tasks(dice), lambda: admitted_tasks(dice)])()


# ---- Task files ----

def tree_of(tasks):
    return {'task': [table_of(task) for task in tasks]}


def table_of(task):
    table = {'name': task.name, 'level': task.level, 'period': task.period, 'low': task.low}
    return table if task.level == LOW else dict(table, high=task.high)


def toml_key(text):
    return text if re.fullmatch('[A-Za-z0-9_-]+', text) else json.dumps(text)


def toml(value):
    """A value, on one line."""
    if isinstance(value, dict):
        return '{ ' + ', '.join(f'{toml_key(key)} = {toml(item)}' for key, item in value.items()) + ' }'
    if isinstance(value, list):
        return '[' + ', '.join(toml(item) for item in value) + ']'
    return json.dumps(value)


def entries(table):
    return ''.join(f'{toml_key(key)} = {toml(value)}\n' for key, value in table)


def toml_text(dice, tree):
    """A tree as a document: its tasks as tables with their keys in some order, or as an array."""
    tables = tree.get('task')
    if not isinstance(tables, list) or not all(isinstance(table, dict) for table in tables) or chance(dice, 1, 4):
        return entries(tree.items())
    top = entries((key, value) for key, value in tree.items() if key != 'task')
    return top + ''.join('[[task]]\n' + entries(shuffled(dice, table.items())) for table in tables)


ODD_NUMBERS = [0, -1, 1, MOST, MOST + 1, 2 ** 63 - 1, 2 ** 63, -2 ** 63, -2 ** 63 - 1]
ODD_VALUES = [True, 'low', 'high', '', '10', 1.5, [], [10], {}, 'n' * 32, 'n' * 33, 'a.b', 'High', '\u00e9']
ODD_KEYS = ['', 'name', 'Period', 'deadline', 'task', 'version', 'k\u00e9y', 'a key', 'x' * 31, 'y' * 32, 'z' * 33]


def spoilt_table(dice, table, tables):
    """A task's table with one change."""
    table = dict(table)
    key = dice.one_of(['name', 'level', 'period', 'low', 'high'])
    change = dice.below(9)
    if change == 0:
        table.pop(key, None)
    elif change == 1:
        table[dice.one_of(ODD_KEYS)] = dice.one_of(ODD_NUMBERS + ODD_VALUES)
    elif change == 2:
        table[key] = dice.one_of(ODD_VALUES)
    elif change == 3:
        table['name'] = dice.one_of(['', 'a.b', 'n' * 33, 'n n'])
    elif change == 4 and isinstance(tables[0], dict):
        table['name'] = tables[0].get('name', 'none')
    elif change == 5:
        table['level'] = dice.one_of([LOW, HIGH, 'High', ''])
    elif change == 6:
        table.update(low=2, high=dice.one_of([0, 1, 1, 2]))
    else:
        table[dice.one_of(['period', 'low', 'high'])] = dice.one_of(ODD_NUMBERS)
    return table


def more_tables(dice):
    return [dict(name=f'more-{number}', level=LOW, period=200, low=1) for number in range(between(dice, 122, 130))]


def spoilt_tree(dice, tree):
    """The tree of a task file with one to three changes, mostly of a task's table."""
    tree = dict(tree, task=list(tree['task']))
    for _ in range(dice.one_of([1, 1, 2, 3])):
        tables = tree.get('task')
        change = dice.below(18)
        if change == 0:
            tree['version'] = dice.one_of([1, 1, 2, 0, '1', 1.0, True])
        elif change == 1:
            tree[dice.one_of(ODD_KEYS)] = dice.one_of(ODD_NUMBERS + ODD_VALUES)
        elif change == 2:
            tree['task'] = dice.one_of([[], {}, 'task', 1, [[]], [{}], [1]])
        elif change == 3:
            tree.pop('task', None)
        elif isinstance(tables, list) and tables:
            place = dice.below(len(tables))
            if change == 4:
                tables[place] = dice.one_of(ODD_NUMBERS + ODD_VALUES)
            elif change in (5, 6):
                tables += more_tables(dice)
            elif isinstance(tables[place], dict):
                tables[place] = spoilt_table(dice, tables[place], tables)
    return tree


# ---- Sets with a scale ----

def without_scale(dice, tasks):
    """The set of these tasks, and its task file, of version 1."""
    return TaskSet(tasks), tree_of(tasks)


def with_scale(dice, tasks):
    """A set of these tasks with a scale, or now and then without, and its task file, of version 2."""
    if chance(dice, 1, 20):
        return TaskSet(tasks), dict(tree_of(tasks), version=2)
    scale = some_scale(dice, tasks)
    p, q = scale.numerator, scale.denominator
    times = dice.one_of([1, 1, between(dice, 1, min(4, MOST // q)), MOST // q])
    return TaskSet(tasks, Scale(p, q)), {'version': 2, 'scale': [times * p, times * q], **tree_of(tasks)}


def some_scale(dice, tasks):
    """A scale: at the least or the greatest one that holds, between them, or just outside; or any."""
    low_low, high_low, high_high = model.loads(tasks)
    step = Fraction(1, dice.one_of([10, 1000, MOST // 2]))
    scales = []
    if 0 < low_low < 1:
        least, most = high_low / (1 - low_low), (1 - high_high) / low_low
        scales = 2 * [least, least - step, most, most + step, (least + most) / 2] + [least / 2]
    q = between(dice, 1, dice.one_of([1, 4, 12, MOST]))
    scale = dice.one_of(scales + [Fraction(1), Fraction(between(dice, 1, q), q)])
    return scale if 0 < scale <= 1 and scale.denominator <= MOST else Fraction(between(dice, 1, q), q)


ODD_VERSIONS = [0, 1, 1, 3, '2', 2.0, True, [2]]
ODD_SCALES = [
    1, '1/2', 0.5, {}, [], [1], [1, 2, 3], [1, '2'], [1.0, 2], [True, 2], [1, False], [[1, 2]], [0, 1], [1, 0], [0, 0], [2, 1],
    [-1, 2], [-2, -1], [1, MOST], [MOST, MOST], [MOST, MOST - 1], [1, MOST + 1], [MOST + 1, MOST + 1], [1, 2 ** 63 - 1],
    [1, 2 ** 63]]


def spoilt_scale(dice, tree):
    """The tree of a task file of version 2 with another version, another scale, or both, and now and then with a fault
    after these."""
    tree = dict(tree)
    change = dice.below(4)
    if change == 0:
        tree['version'] = dice.one_of(ODD_VERSIONS)
    elif change == 1:
        del tree['version']
    if change > 1 or chance(dice, 1, 3):
        tree['scale'] = dice.one_of(ODD_SCALES)
    if chance(dice, 1, 6):
        tree[dice.one_of(['Scale', 'scales', 'scalar', 'tasks'])] = [1, 2]
    return spoilt_tree(dice, tree) if chance(dice, 1, 4) else tree


# ---- Work ----

def need_of(dice, task, wild):
    """Ticks below, at and above the budgets; of a wild high task mostly above the low one."""
    below, own = between(dice, 1, task.low), task.high
    if wild and task.level == HIGH:
        return min(MOST, dice.one_of([task.low, between(dice, task.low, own), own, own, own + between(dice, 1, 3)]))
    return min(MOST, dice.one_of([below, below, task.low, own, own + between(dice, 1, 3)]))


def work_of(dice, tasks, end):
    """Jobs of all tasks: at their periods or later, up to the end and a few past it."""
    work = []
    for number, task in enumerate(tasks, 1):
        wild = chance(dice, 1, 2)
        slack = dice.one_of([0, 0, 2, task.period])
        release = dice.one_of([0, 0, dice.below(min(task.period, end))])
        while release <= min(end + 3, MOST):
            work.append(Work(number, release, need_of(dice, task, wild)))
            release += task.period + dice.below(slack + 1)
    if chance(dice, 1, 20):
        work.append(Work(between(dice, 1, len(tasks)), MOST - dice.below(3), 1))
    return sorted(shuffled(dice, work), key=lambda row: row.release)


def work_text(tasks, work):
    rows = [f'{tasks[row.task - 1].name},{row.release},{row.need}' for row in work]
    return '\n'.join(['task,release,need'] + rows) + '\n'


# ---- Traces ----

MOST_RUNS = 150


def wander(dice, tasks, rule, end, stride=1):
    """A legal trace of about `end` ticks or MOST_RUNS runs. When tasks release, which of equal keys comes first and when
    jobs are done is random; at most `stride` ticks come at once."""
    eager, lasting = dice.one_of([(1, 100), (1, 10), (1, 4), (2, 100), (2, 4), (6, 2)])
    trace = Trace()
    while model.ticks(trace) < end and len(trace.runs) < MOST_RUNS:
        release_some(dice, tasks, rule, trace, eager)
        most = between(dice, 1, min(stride, end - model.ticks(trace)))
        trace.add(some_ticks(dice, tasks, rule, trace, lasting, most))
    if chance(dice, 1, 3):
        release_some(dice, tasks, rule, trace, eager)
    return trace.runs


def some_ticks(dice, tasks, rule, trace, lasting, most):
    """Ticks that may come next, at most `most`."""
    now = model.ticks(trace)
    waiting = model.keys(tasks, rule, trace, model.pending(tasks, trace))
    if not waiting:
        return Run(IDLE, now, None, most)
    job = dice.one_of([job for job in waiting if waiting[job] == min(waiting.values())])
    kind = DONE if chance(dice, 1, lasting) else model.how_of(tasks, rule, trace, job)
    if kind != MORE:
        return Run(kind, now, job)
    task, past = model.task_of(tasks, job), model.used(trace, job)
    left = [budget - past - 1 for budget in (task.low, task.high) if budget > past + 1]
    return Run(MORE, now, job, min([most] + left))


def release_some(dice, tasks, rule, trace, eager):
    """Releases of the tasks that may release now, each with a chance of one in `eager`."""
    now = model.ticks(trace)
    for number in shuffled(dice, range(1, len(tasks) + 1)):
        earlier = model.releases_of(trace, number)
        if chance(dice, 1, eager) and all(row.tick + tasks[number - 1].period <= now for row in earlier):
            job = Job(number, len(earlier) + 1)
            trace.add(Run(DROPPED if model.is_dropped(tasks, rule, trace, job) else KEPT, now, job))


def cut_short(dice, runs):
    return runs[:dice.below(len(runs) + 1)]


def counted_anew(runs):
    """The runs with the ticks that they have by their places, and several rows only where there may be."""
    due, counted = 0, []
    for run in runs:
        run = run._replace(tick=due, length=run.length if run.kind in (MORE, IDLE) else 1)
        counted.append(run)
        due += run.length if run.kind not in RELEASES else 0
    return counted


# A trace of at most MOST_BY_ROWS rows is also given in version 1.
MOST_BY_ROWS = 400


def text_of_records(records):
    return '\n'.join(','.join(record) for record in records) + '\n'


def row_text(tasks, runs):
    """A trace in version 1."""
    fields = [run_fields(tasks, row) for row in rows_of(runs)]
    return text_of_records([TRACE_HEADERS[1]] + [record[:2] + record[3:] for record in fields])


def run_text(tasks, runs):
    """Runs in version 2, one a record, whether or not they could be fewer."""
    return text_of_records([TRACE_HEADERS[2]] + [run_fields(tasks, run) for run in runs])


def halved(dice, run):
    """A run as two, where it is of several rows."""
    first = between(dice, 1, run.length - 1) if run.length > 1 else 0
    second = run._replace(tick=run.tick + first, length=run.length - first)
    return [run._replace(length=first), second] if first else [run]


def texts_of(dice, tasks, runs):
    """Two texts of a trace: of version 1, of the fewest runs, or of runs that could be fewer."""
    halves = [half for run in runs for half in (halved(dice, run) if chance(dice, 1, 2) else [run])]
    texts = [model.trace_text(tasks, runs), run_text(tasks, halves)]
    if sum(run.length for run in runs) <= MOST_BY_ROWS:
        texts += [row_text(tasks, runs), row_text(tasks, runs), run_text(tasks, rows_of(runs))]
    return shuffled(dice, texts)[:2]


# Each spoils the run at a place, in place.

def other_kind(dice, tasks, rows, place):
    row = rows[place]
    kinds = [kind for kind in EVENTS if EVENTS[kind] == EVENTS[row.kind] and kind != row.kind]
    rows[place] = row._replace(kind=dice.one_of(kinds or [row.kind]))


def other_event(dice, tasks, rows, place):
    job = some_job(dice, tasks, rows[:place])
    rows[place] = Run(dice.one_of(TICKS), 0, job) if rows[place].kind == IDLE else Run(IDLE, 0, None)


def some_job(dice, tasks, rows):
    """A job of the rows, or any."""
    jobs = [row.job for row in rows if row.job is not None]
    if jobs and not chance(dice, 1, 8):
        return dice.one_of(jobs)
    return Job(between(dice, 1, len(tasks)), between(dice, 1, 3))


def on_job(change):
    """The spoiling of a row by a change of its job."""
    def spoil(dice, tasks, rows, place):
        job = rows[place].job
        if job is not None:
            rows[place] = rows[place]._replace(job=change(dice, tasks, rows[:place], job))
    return spoil


def other_pending(dice, tasks, rows, place):
    others = [job for job in model.pending(tasks, Trace(rows[:place])) if job != rows[place].job]
    if rows[place].kind in TICKS and others:
        rows[place] = rows[place]._replace(job=dice.one_of(others))


other_job = on_job(lambda dice, tasks, before, job: some_job(dice, tasks, before))
other_task = on_job(lambda dice, tasks, before, job: job._replace(task=between(dice, 1, len(tasks))))
other_count = on_job(
    lambda dice, tasks, before, job: job._replace(count=dice.one_of([job.count + 1, max(0, job.count - 1), MOST])))


def swapped(dice, tasks, rows, place):
    other = max(0, place - between(dice, 1, 2))
    rows[place], rows[other] = rows[other], rows[place]


def left_out(dice, tasks, rows, place):
    del rows[place]


def doubled(dice, tasks, rows, place):
    rows.insert(place, rows[place])


def early_release(dice, tasks, rows, place):
    """A release more, which often comes too soon."""
    number = between(dice, 1, len(tasks))
    count = 1 + len(model.releases_of(Trace(rows[:place]), number))
    rows.insert(place, Run(dice.one_of(RELEASES), 0, Job(number, count)))


def other_length(dice, tasks, rows, place):
    length = rows[place].length + dice.one_of([-1, 1, 1, 2, rows[place].length])
    rows[place] = rows[place]._replace(length=max(1, length))


def past_a_budget(dice, tasks, rows, place):
    """Ticks with more to do up to a budget of their job, or past it."""
    run = rows[place]
    if run.kind in TICKS:
        task, past = model.task_of(tasks, run.job), model.used(Trace(rows[:place]), run.job)
        left = dice.one_of([task.low, task.high]) - past
        rows[place] = run._replace(kind=MORE, length=max(1, left + dice.one_of([-1, 0, 1, 2, 3])))


ROW_CHANGES = 3 * [other_kind, other_pending, past_a_budget] + 2 * [other_count, other_event, other_length] + [
    early_release, other_job, other_task, swapped, left_out, doubled]


def spoilt_runs(dice, tasks, runs):
    """The runs with one of them spoilt, mostly one of a job, in one to three ways, and their ticks counted again."""
    places = [place for place, run in enumerate(runs) if run.kind != IDLE or chance(dice, 1, 8)]
    place = dice.one_of(places or range(len(runs)))
    spoilt = list(runs)
    for _ in range(dice.one_of([1, 1, 2, 2, 3])):
        if place < len(spoilt):
            dice.one_of(ROW_CHANGES)(dice, tasks, spoilt, place)
    return counted_anew(spoilt)


LONG_ENDS = [200, 5000, 200000, 2000000, 2000000, 2000001, MOST_TICKS - 1, MOST_TICKS]


def some_trace(dice, tasks, rule):
    """A legal trace of a few rows or of long runs, whole."""
    if chance(dice, 2, 3):
        runs = wander(dice, tasks, rule, between(dice, 1, dice.one_of([10, 60, 60])))
        return rows_of(runs) if chance(dice, 1, 2) else runs
    end = dice.one_of(LONG_ENDS)
    runs = wander(dice, tasks, rule, end, 1 + end // 12)
    return stretched(runs, end) if chance(dice, 1, 2) else runs


def stretched(runs, end):
    """The runs up to the last idle one, which is made so long that there are `end` ticks."""
    places = [place for place, run in enumerate(runs) if run.kind == IDLE]
    if not places:
        return runs
    last = runs[places[-1]]
    return runs[:places[-1]] + [last._replace(length=end - last.tick)]


def runs_of(dice, tasks, rule):
    """A legal trace, whole or cut short, or one with a spoilt run."""
    runs = some_trace(dice, tasks, rule)
    return dice.one_of([lambda: runs, lambda: cut_short(dice, runs)] + 2 * [lambda: spoilt_runs(dice, tasks, runs)])()


# ---- Files that are refused ----

ODD_FIELDS = 4 * ['0'] + ['', '1', '-1', '+1', ' 1', '1 ', '1.0', '0000000001', '00000000001', str(MOST), str(MOST + 1)]
WORK_FIELDS = ODD_FIELDS + ['bob', 'task', 'release', 'need']
TRACE_FIELDS = ODD_FIELDS + ['bob', 'event', 'release', 'tick', 'idle', str(MOST_TICKS), str(MOST_TICKS + 1)] + [
    *RELEASES, *TICKS]


def spoil_record(dice, records, place, fields):
    """Changes one field of a record, or their number."""
    record = records[place]
    which = dice.below(len(record))
    change = dice.below(8)
    if change == 0:
        record.insert(which, dice.one_of(fields))
    elif change == 1:
        del record[which]
    elif re.fullmatch('[0-9]{1,10}', record[which]) and change < 7:
        nearby = str(max(0, int(record[which]) + dice.one_of([-2, -1, 1, 2])))
        record[which] = nearby if change < 5 else dice.one_of(ODD_FIELDS)
    else:
        record[which] = dice.one_of(fields)


def spoil_records(dice, records, place):
    """Changes the list of records."""
    change = dice.below(4)
    if change == 0:
        del records[place]
    elif change == 1:
        records.insert(place, list(records[place]))
    elif change == 2:
        other = dice.below(len(records))
        records[place], records[other] = records[other], records[place]
    else:
        records.insert(place, [''])


def spoilt_text(dice, text, fields):
    """A file of records after one to four changes, mostly in one place; sometimes cut, or without a last line feed."""
    records = [line.split(',') for line in text.split('\n')[:-1]]
    place = 0 if chance(dice, 1, 12) else between(dice, 1, len(records))
    for _ in range(dice.one_of([1, 1, 2, 3, 4])):
        if chance(dice, 1, 6):
            place = dice.below(len(records) + 1)
        if place < len(records) and records[place]:
            if chance(dice, 1, 4):
                spoil_records(dice, records, place)
            else:
                spoil_record(dice, records, place, fields)
    text = text_of_records(records)
    return dice.one_of([text] * 8 + [text[:-1], text[:dice.below(len(text) + 1)]])


# ---- Cases ----

ODD_WORDS = [
    '', '0', '1', '01', '-1', '1.0', 'x', '100001', '1000001', str(MOST), str(MOST + 1), str(2 ** 64 - 1), str(2 ** 64),
    '0' * 19 + '1', '0' * 20 + '1']


def check_case(dice):
    tree = tree_of(any_tasks(dice))
    return Case('check', spoilt_tree(dice, tree) if chance(dice, 1, 3) else tree, None, [])


def scaled_check_case(dice, chosen):
    tasks = dice.one_of([any_tasks, admitted_tasks, lambda dice: small_tasks(dice, 60)])(dice)
    return Case('check', chosen(dice, tasks)[1], None, [])


def ticks_word(dice):
    return str(between(dice, 1, dice.one_of([6, 20, 60])))


def run_case(dice, chosen=without_scale):
    tasks = mostly_admitted(dice)
    word = ticks_word(dice)
    _, tree = chosen(dice, tasks)
    return Case('run', tree, work_text(tasks, work_of(dice, tasks, int(word))), [word])


def refused_run_case(dice):
    tasks = mostly_admitted(dice)
    later = dice.one_of([0, 0, MOST - 20])
    work = [row._replace(release=min(MOST, row.release + later)) for row in work_of(dice, tasks, 20)]
    return Case('run', tree_of(tasks), spoilt_text(dice, work_text(tasks, work), WORK_FIELDS), [ticks_word(dice)])


def traced_case(dice, command, chosen):
    tasks = mostly_admitted(dice)
    task_set, tree = chosen(dice, tasks)
    text, twin = texts_of(dice, tasks, runs_of(dice, tasks, model.test(task_set) or PLAIN))
    return Case(command, tree, text, [], twin)


def judge_case(dice, chosen=without_scale):
    return traced_case(dice, 'judge', chosen)


def drawn_case(dice, chosen=without_scale):
    return traced_case(dice, dice.one_of(['chart', 'report', 'migrate']), chosen)


def scale_for(dice, tasks):
    """A scale: that of the published test, the same in other terms, or any other."""
    rule = model.published(tasks)
    if rule is not None and rule != PLAIN and rule.q <= MOST // 3 and chance(dice, 1, 3):
        times = between(dice, 1, 3)
        return times * rule.p, times * rule.q
    most = dice.one_of([1, 4, 12, MOST])
    q = between(dice, max(1, most - 12), most)
    return dice.one_of([1, q, between(dice, 1, q)]), q


def judge_by_scale_case(dice, chosen=without_scale):
    tasks = for_a_scale(dice)
    p, q = scale_for(dice, tasks)
    text, twin = texts_of(dice, tasks, runs_of(dice, tasks, model.virtual(p, q)))
    return Case('judge', chosen(dice, tasks)[1], text, [str(p), str(q)], twin)


def with_odd_length(dice, runs):
    """The runs with another length of one of them, even if it is one row; the ticks of those after it are counted again."""
    place = dice.below(len(runs))
    run = runs[place]
    to_the_limit = MOST_TICKS - run.tick
    odd = run._replace(length=dice.one_of([0, 2, run.length + 1, to_the_limit, to_the_limit + 1]))
    due, rest = run.tick + (odd.length if run.kind not in RELEASES else 0), counted_anew(runs[place + 1:])
    return runs[:place] + [odd] + [later._replace(tick=due + later.tick) for later in rest]


def with_other_ticks(dice, text):
    """The text with other ticks in all records of a length that is 0 or above 1, so that they are wrong in two ways."""
    records = [line.split(',') for line in text.split('\n')[:-1]]
    for record in records[1:]:
        if record[2] not in ('', '1') and chance(dice, 3, 4):
            record[1] = dice.one_of([str(int(record[1]) + 1), 'x', str(MOST + 1)])
    return text_of_records(records)


def refused_trace_case(dice):
    tasks = mostly_admitted(dice)
    end, stride = dice.one_of([(between(dice, 1, 12), dice.one_of([1, 1, 3])), (MOST_TICKS, 1 + MOST_TICKS // 6)])
    runs = wander(dice, tasks, model.published(tasks) or PLAIN, end, stride)
    if chance(dice, 1, 3):
        text = run_text(tasks, with_odd_length(dice, runs))
        text = with_other_ticks(dice, text) if chance(dice, 1, 2) else text
    else:
        text = spoilt_text(dice, texts_of(dice, tasks, runs)[0], TRACE_FIELDS)
    words = dice.one_of([[], [], ['1', '2']])
    command = 'judge' if words else dice.one_of(['judge', 'judge', 'chart', 'report', 'migrate'])
    return Case(command, tree_of(tasks), text, words)


def live_case(dice, chosen=without_scale):
    _, tree = chosen(dice, mostly_admitted(dice))
    return Case('live', tree, None, [str(between(dice, 1, dice.one_of([8, 60, 300])))])


def soak_case(dice):
    number = dice.one_of([dice.below(100), dice.below(2 ** 32), between(dice, 0, 2 ** 64 - 1)])
    end = int(200 * 100 ** dice.random.random())
    return Case('soak', None, None, [str(number), str(between(dice, 2, 32)), str(end)])


def odd_words_case(dice):
    case = dice.one_of([run_case, judge_by_scale_case, soak_case, live_case])(dice)
    words = [dice.one_of(ODD_WORDS) if chance(dice, 1, 2) else word for word in case.words]
    return case._replace(words=words)


DEMAND_PERIODS = [[1, 2, 3, 4, 6], [2, 4, 8, 16], [3, 5, 15], [4, 5, 10, 20], [3, 4, 5]]
DEMAND_FIELDS = ODD_FIELDS + ['bob', 'task', 'period', 'deadline', 'budget', '500000', '500001']


def demands_of(dice):
    """One to five tasks that ask for about as much as there is, with deadlines of at most their periods, sometimes all of
    the periods: then a set may be past no length but the last."""
    known = dice.one_of(DEMAND_PERIODS)
    periods = [dice.one_of(known) for _ in range(between(dice, 1, 5))]
    are_periods = chance(dice, 1, 4)
    own = budgets(dice, periods, between(dice, 95, 115) if are_periods else between(dice, 40, 110))
    return [
        Demand(
            f'{dice.one_of(STEMS)}{number}', period, period if are_periods else between(dice, min(period, budget), period),
            budget)
        for number, (period, budget) in enumerate(zip(periods, own), 1)]


def wide_demands(dice):
    """A task with a period at the limit and a short deadline, which is met by the last tick or missed."""
    deadline = between(dice, 1, 30)
    return [Demand('wide', between(dice, 499999, 500001), deadline, between(dice, max(1, deadline - 1), deadline + 1))]


def with_fault(dice, demands):
    """The tasks, one of which mostly may not come after those before it, for one reason or for several."""
    place = dice.below(len(demands))
    task = demands[place]
    for _ in range(between(dice, 1, 3)):
        task = task._replace(**dice.one_of([
            {'name': demands[0].name}, {'name': task.name + '.'}, {'budget': 0}, {'budget': MOST + 1}, {'deadline': 0},
            {'deadline': task.period + 1}, {'deadline': MOST + 1}, {'period': 250001}, {'period': 500001}]))
    return demands[:place] + [task] + demands[place + 1:]


def demand_case(dice):
    demands = wide_demands(dice) if chance(dice, 1, 20) else demands_of(dice)
    if chance(dice, 1, 4):
        demands = with_fault(dice, demands)
    text = demand_file(*[','.join(map(str, task)) for task in demands])
    if chance(dice, 1, 100):
        text = demand_file()
    words = [dice.one_of(ODD_WORDS)] if chance(dice, 1, 40) else []
    return Case('demand', None, spoilt_text(dice, text, DEMAND_FIELDS) if chance(dice, 1, 3) else text, words)


# Periods that go together in twos, and out of the range in threes or so.
APART = [2 ** 31, 3 ** 20, 5 ** 13, 7 ** 11, 4294967291, 65537]


def with_more_load(dice, tasks):
    """The tasks, each with mostly greater budgets of up to its period, so that a few of them load a processor."""
    heavier = []
    for task in tasks:
        own = max(task.high, min(MOST, task.period * between(dice, 5, dice.one_of([30, 60, 105])) // 100))
        low = own if task.level == LOW else dice.one_of([task.low, min(own, max(1, own // between(dice, 2, 6)))])
        heavier.append(task._replace(low=low, high=own))
    return heavier


def tasks_for_several(dice):
    """Tasks for one processor or for several: few or many, at the limit of one, or of periods that do not go together."""
    kind = dice.below(10)
    if kind == 0:
        return [task._replace(name=f't{number}') for number, task in enumerate(
            tasks_of(dice, [dice.one_of(PERIODS_OF_MANY) for _ in range(between(dice, 60, 128))], 400), 1)]
    if kind < 3:
        return tasks_of(dice, [dice.one_of(APART) for _ in range(between(dice, 2, 6))], dice.one_of([60, 110, 250]))
    if kind < 6:
        parts = [small_or_at_one(dice) for _ in range(between(dice, 1, 3))]
        tasks = shuffled(dice, [task for part in parts for task in part]) if chance(dice, 1, 2) else sum(parts, [])
        return [task._replace(name=f't{number}') for number, task in enumerate(tasks[:128], 1)]
    return with_more_load(dice, tasks_of(dice, [dice.one_of(dice.one_of(PERIODS)) for _ in range(between(dice, 2, 9))]))


def processors_word(dice):
    return str(dice.one_of([1, 2, 2, 2, 3, 3, 4, 5, 16]))


# The numbers at the limits of each command's words, and one past them.
LIMITS = {'partition': ['0', '16', '17'], 'runall': ['0', '16', '17'], 'accept': ['0', '1', '10001', '32', '33']}


def some_odd(dice, case):
    """The case, now and then with a spoilt task file or with odd words."""
    if case.tree is not None and chance(dice, 1, 15):
        case = case._replace(tree=spoilt_tree(dice, case.tree))
    if case.words and chance(dice, 1, 15):
        case = case._replace(words=case.words[:-1] + [dice.one_of(LIMITS[case.command])])
    elif chance(dice, 1, 15):
        odd = ODD_WORDS + ['16', '17', '10000', '10001', '32', '33']
        case = case._replace(words=[dice.one_of(odd) if chance(dice, 2, 3) else word for word in case.words] + dice.one_of(
            [[], [], [dice.one_of(odd)]]))
    return case


def partition_case(dice):
    tasks = tasks_for_several(dice)
    if len(tasks) < 128 and chance(dice, 1, 8):
        tasks = tasks + [Task('too-much', LOW, 10, 11, 11)]
    return some_odd(dice, Case('partition', tree_of(tasks), None, [processors_word(dice)]))


def runall_case(dice):
    tasks = tasks_for_several(dice) if chance(dice, 3, 4) else small_tasks(dice, 250)
    word = ticks_word(dice)
    work = work_of(dice, tasks, int(word))
    if chance(dice, 1, 6):
        work = [row for row in work if row.task > len(tasks) // 2]
    text = work_text(tasks, work)
    text = spoilt_text(dice, text, WORK_FIELDS) if chance(dice, 1, 8) else text
    return some_odd(dice, Case('runall', tree_of(tasks), text, [word, processors_word(dice)]))


def with_great_budgets(dice):
    """Tasks of great periods, of whose high budgets a few times as much is past the greatest number."""
    high = between(dice, MOST // 10, MOST)
    tasks = [Task('great', HIGH, MOST - dice.below(3), between(dice, 1, high), high)]
    return tasks + ([Task('small', LOW, tasks[0].period, *2 * [between(dice, 1, MOST // 4)])] if chance(dice, 1, 2) else [])


def with_near_budgets(dice, tasks):
    """The tasks, of whose high ones the low budget is no less than half of the high one."""
    return [task._replace(low=between(dice, (task.high + 1) // 2, task.high)) if task.level == HIGH else task for task in tasks]


def with_far_budgets(dice):
    """A task whose high budget is many times its period."""
    period = between(dice, 1, 20)
    return [Task('far', HIGH, period, between(dice, 1, period), period * between(dice, 2, 250))]


def stretch_case(dice):
    kinds = 2 * [any_tasks, admitted_tasks] + [
        huge_tasks, lambda _: small_tasks(dice, 40), lambda _: small_tasks(dice, 40), with_great_budgets, with_great_budgets,
        with_far_budgets]
    tasks = dice.one_of(kinds)(dice)
    tasks = with_near_budgets(dice, tasks) if chance(dice, 1, 4) else tasks
    return some_odd(dice, Case('stretch', tree_of(tasks), None, []))


def accept_case(dice):
    sets = between(dice, 1, 5)
    last = 2 ** 64 - 1 - sets
    number = dice.one_of([dice.below(100), dice.below(2 ** 32), between(dice, 0, last), last, last + 1])
    return some_odd(dice, Case('accept', None, None, [str(number), str(sets), str(between(dice, 2, 32))]))


SEVERAL_AND_ROOM = 7 * [partition_case] + 6 * [runall_case] + 6 * [stretch_case] + [accept_case]


def scaled_case(dice):
    """A command on a set with a scale, or one whose file is refused."""
    makers = 10 * [scaled_check_case] + 5 * [run_case] + 4 * [judge_case] + 3 * [drawn_case] + [live_case, judge_by_scale_case]
    case = dice.one_of(makers)(dice, with_scale)
    return case._replace(tree=spoilt_scale(dice, case.tree)) if chance(dice, 1, 4) else case


def unasked_case(dice):
    """A command that asks for no scale, on a set with one."""
    case = dice.one_of([partition_case, runall_case, stretch_case])(dice)
    if case.tree.get('version', 1) != 1 or not isinstance(case.tree.get('task'), list):
        return case
    _, tree = with_scale(dice, admitted_tasks(dice))
    return case._replace(tree=dict(tree, task=case.tree['task']))


SCALED = 9 * [scaled_case] + [unasked_case]

HUNDRED = (
    17 * [check_case] + 17 * [run_case] + 6 * [refused_run_case] + 16 * [judge_case] + 14 * [judge_by_scale_case]
    + 14 * [drawn_case] + 9 * [refused_trace_case] + 5 * [live_case] + [soak_case, odd_words_case])


def cases(count, dice):
    """A hundred cases over and over, some with a task file that was spoilt after the second file was made for it. Of 24 parts
    of the cases the last five are one of demand sets, two of sets for several processors and how much room a set has, and two
    of sets with a scale of their own."""
    part = count // 24
    for number in range(count - 5 * part):
        case = HUNDRED[number % len(HUNDRED)](dice)
        is_spoilt = case.command not in ('check', 'soak') and chance(dice, 1, 30)
        yield case._replace(tree=spoilt_tree(dice, case.tree)) if is_spoilt else case
    for _ in range(part):
        yield demand_case(dice)
    for number in range(2 * part):
        yield SEVERAL_AND_ROOM[number % len(SEVERAL_AND_ROOM)](dice)
    for number in range(2 * part):
        yield SCALED[number % len(SCALED)](dice)


# ---- What came of them ----

HAPPENINGS = ['an overrun', 'a discard', 'a drop', 'a stop', 'a return', 'a tie']
PARTS = [
    'all on one processor', 'an empty processor', 'a set that one processor refuses', 'a part by EDF', 'a part by EDF-VD']
WHYS = ['too_soon', 'wrong_count', 'wrong_kept', 'not_pending', 'not_least', 'wrong_how', 'idle_pending']

STATUSES = {
    'check': [0, 1, 3],
    'run': [0, 1, 2, 3, 4],
    'judge': [0, 1, 3, 5, 6],
    'judge by a scale': [0, 2, 3, 5, 6],
    'chart': [0, 1, 3, 5, 6],
    'report': [0, 1, 3, 5, 6],
    'migrate': [0, 1, 3, 5, 6],
    'live': [0, 1, 2, 3],
    'soak': [0, 2],
    'demand': [0, 2, 10, 11],
    'partition': [0, 2, 3, 12],
    'runall': [0, 2, 3, 4, 12],
    'stretch': [0, 2, 3],
    'accept': [0, 2],
}
OUTCOMES = {
    'check': ['plain', 'plain at 1', 'virtual', 'virtual at 1'],
    'run': HAPPENINGS,
    'judge': HAPPENINGS + WHYS,
    'judge by a scale': HAPPENINGS + WHYS + [
        'late', 'two jobs of a task', 'a scale that holds', 'a scale that does not hold'],
    'migrate': HAPPENINGS,
    'live': ['an overrun', 'a discard', 'a drop', 'a return', 'a tie'],
    'demand': ['within', 'past', 'past behind a second release', 'past at the last length', 'several late'],
    'partition': PARTS + ['back to an earlier processor', 'not the fullest processor', 'kept apart by the range'],
    'runall': HAPPENINGS + PARTS + ['a part without jobs', 'a task of another number in its part'],
    'stretch': [
        'none', 'exactly 0', 'below 100', 'exactly 100', 'above 100', 'the greatest', 'a budget at the greatest number',
        'a low budget in place of a lower high one', 'plain', 'virtual', 'at 1'],
    'accept': ['some at 120', 'not all at 120', 'the last number'],
    'scale': [
        'holds', 'holds at its least', 'holds at its greatest', 'is the published one', 'holds in place of plain EDF',
        'does not hold', 'told beside EDF-VD', 'told beside plain EDF', 'of a set that is not admitted',
        'not in lowest terms', 'with the greatest number', 'none in version 2', 'not asked for'],
    'traces': ['version 1', 'version 2', 'a run of several rows', 'above a million ticks', 'two texts'],
    'task file': [
        'not TOML', 'unknown key', 'unknown key scale', 'unknown version', 'wrong kind of scale', 'out of range scale',
        'no tasks', 'missing key', 'wrong kind', 'bad name',
        'out of range level', 'out of range period', 'out of range low', 'out of range high',
        'high budget on a low task', 'at most 128', 'high budget below low budget', 'have one name',
        'periods out of range'],
    'work file': [
        'header', 'not three fields', 'unknown task', 'bad number', 'need is 0', 'release before the last one',
        'too soon'],
    'trace': [
        'header', 'not five fields', 'not six fields', 'unknown event', 'unknown task', 'bad number', 'wrong tick',
        'bad length', 'more than 100000000 ticks', 'a chart has at most 2000000'],
    'demand file': [
        'header', 'no tasks', 'not four fields', 'bad name', 'name used before', 'bad number', 'number is 0',
        'deadline after period', 'periods out of range'],
}


def happened(tasks, rule, runs):
    """What happens in a legal trace."""
    for before, row in with_before(Trace(runs).runs):
        if row.kind in (OVER, DROPPED, STOP):
            yield {OVER: 'an overrun', DROPPED: 'a drop', STOP: 'a stop'}[row.kind]
        if row.kind == IDLE and model.is_high_mode(rule, before):
            yield 'a return'
        if row.kind in TICKS and is_tie(tasks, rule, before):
            yield 'a tie'
        if row.kind == KEPT and row.job.task in [job.task for job in model.pending(tasks, before)]:
            yield 'two jobs of a task'
    trace = Trace(runs)
    if any(model.is_discarded(tasks, trace, row) for row in trace.of(KEPT)):
        yield 'a discard'


def is_tie(tasks, rule, trace):
    waiting = list(model.keys(tasks, rule, trace, model.pending(tasks, trace)).values())
    return waiting.count(min(waiting)) > 1


def rule_of(case):
    return model.virtual(*map(int, case.words)) if case.form() == 'judge by a scale' else model.test(model.read_set(case.tree))


def kinds_of_trace(case, runs):
    """What comes up in the traces that were read."""
    yield 'traces', 'version 1' if case.second.startswith('event,tick,task') else 'version 2'
    if any(run.length > 1 for run in runs):
        yield 'traces', 'a run of several rows'
    if model.ticks(Trace(runs)) > 1000000:
        yield 'traces', 'above a million ticks'
    if case.twin is not None:
        yield 'traces', 'two texts'


def is_at_one(tasks, rule):
    low_low, _, high_high = model.loads(tasks)
    return Fraction(rule.p, rule.q) * low_low + high_high == 1


def outcomes(case, status, text):
    """What came of a case, as OUTCOMES names it: of which command or file, and what."""
    form = case.form()
    if case.tree is not None and model.is_version(case.tree, 2) and status in (0, 1, 6, 12):
        yield from (('scale', words) for words in set(outcomes_of_scale(case, status)))
    if status in (3, 4, 5, 11):
        file = {3: 'task file', 4: 'work file', 5: 'trace', 11: 'demand file'}[status]
        yield from ((file, words) for words in OUTCOMES[file] if words in text)
    elif text.startswith('illegal'):
        yield form, text.split()[3]
    elif form == 'demand' and status != 2:
        yield from ((form, words) for words in outcomes_of_demands(model.read_demands(case.second)))
    elif form in OUTCOMES_OF and status == 0:
        yield from ((form, words) for words in set(OUTCOMES_OF[form](case, text)))
    elif status in (0, 6) and form != 'soak':
        tasks = model.read_tasks(case.tree)
        rule = rule_of(case)
        if form == 'check':
            yield form, rule.name + (' at 1' if is_at_one(tasks, rule) else '')
        else:
            runs = model.read_trace(tasks, text if form in ('run', 'live') else case.second)
            yield from ((form, words) for words in set(happened(tasks, rule, runs)))
            if form not in ('run', 'live'):
                yield from kinds_of_trace(case, runs)
        if form == 'judge by a scale':
            yield form, 'a scale that holds' if model.holds(tasks, rule) else 'a scale that does not hold'
        if status == 6:
            yield form, 'late'


def outcomes_of_scale(case, status):
    """What comes of the scale of a set that is read."""
    tasks, scale = model.read_set(case.tree)
    if scale is None:
        yield 'none in version 2'
        return
    if math.gcd(*case.tree['scale']) > 1:
        yield 'not in lowest terms'
    if MOST in case.tree['scale']:
        yield 'with the greatest number'
    if case.form() in ('partition', 'runall', 'stretch', 'judge by a scale'):
        yield 'not asked for'
    elif status == 1:
        yield 'of a set that is not admitted'
    elif model.holds(tasks, model.virtual(*scale)):
        yield from outcomes_of_held(tasks, scale)
    else:
        yield 'does not hold'
        if case.form() == 'check':
            yield 'told beside ' + ('plain EDF' if model.published(tasks) == PLAIN else 'EDF-VD')


def outcomes_of_held(tasks, scale):
    """What comes of a scale that holds."""
    low_low, high_low, high_high = model.loads(tasks)
    yield 'holds'
    if model.published(tasks) == PLAIN:
        yield 'holds in place of plain EDF'
    if model.published(tasks) == model.virtual(*scale):
        yield 'is the published one'
    if high_low and scale.p * low_low + scale.q * high_low == scale.p:
        yield 'holds at its least'
    if low_low and scale.p * low_low + scale.q * high_high == scale.q:
        yield 'holds at its greatest'


def outcomes_of_demands(demands):
    """What comes of a demand set."""
    length = model.first_past(demands)
    yield 'within' if length is None else 'past'
    if length is not None:
        rows = model.counterexample(demands, length)
        if any(released.job.count > 1 for released in model.edf_jobs(rows)):
            yield 'past behind a second release'
        if 1 < length == model.hyperperiod(demands):
            yield 'past at the last length'
        if len(model.edf_late(demands, rows)) > 1:
            yield 'several late'


def outcomes_of_parts(tasks, count):
    """What comes of a set on several processors that takes them."""
    processors = model.first_fit(tasks, count)
    if len(set(processors)) == 1:
        yield 'all on one processor'
    if len(set(processors)) < count:
        yield 'an empty processor'
    if not model.fits(tasks):
        yield 'a set that one processor refuses'
    for number in set(processors):
        is_plain = model.published(model.part(tasks, processors, number)) == PLAIN
        yield 'a part by EDF' if is_plain else 'a part by EDF-VD'


def outcomes_of_partition(case, _):
    tasks, count = model.read_tasks(case.tree), int(case.words[0])
    yield from outcomes_of_parts(tasks, count)
    processors = model.first_fit(tasks, count)
    if any(later < earlier for earlier, later in zip(processors, processors[1:])):
        yield 'back to an earlier processor'
    for place, (task, chosen) in enumerate(zip(tasks, processors)):
        parts = [model.part(tasks[:place], processors[:place], number) for number in range(1, count + 1)]
        taking = [part for part in parts if model.fits(part + [task])]
        if full(parts[chosen - 1]) < max(map(full, taking)):
            yield 'not the fullest processor'
        refusing = [part + [task] for part in parts[:chosen - 1]]
        if any(model.out_of_range(part) is not None and model.published(part) is not None for part in refusing):
            yield 'kept apart by the range'


def full(tasks):
    """How much of a processor some tasks take by their own budgets."""
    low_low, _, high_high = model.loads(tasks)
    return low_low + high_high


def outcomes_of_runall(case, _):
    tasks, end, count = model.read_tasks(case.tree), *map(int, case.words)
    yield from outcomes_of_parts(tasks, count)
    processors, work = model.first_fit(tasks, count), model.read_work(tasks, case.second)
    for number in set(processors):
        own, own_work = model.part(tasks, processors, number), model.part_work(processors, number, work)
        rule = model.published(own)
        yield from (what for what in happened(own, rule, model.follow(own, rule, own_work, end)) if what in HAPPENINGS)
        if not any(row.release < end for row in own_work):
            yield 'a part without jobs'
        if any(tasks.index(task) != place for place, task in enumerate(own)):
            yield 'a task of another number in its part'


def outcomes_of_stretch(case, _):
    tasks = model.read_tasks(case.tree)
    greatest = model.stretch(tasks)
    if greatest is None:
        yield 'none'
        return
    yield 'below 100' if greatest < 100 else 'exactly 100' if greatest == 100 else 'above 100'
    if greatest == 0:
        yield 'exactly 0'
    if greatest == model.MOST_PERCENT:
        yield 'the greatest'
    highs = [task for task in tasks if task.level == HIGH]
    if any(task.high * greatest // 100 > MOST for task in highs):
        yield 'a budget at the greatest number'
    if any(task.high * greatest // 100 < task.low for task in highs):
        yield 'a low budget in place of a lower high one'
    at_greatest = model.at_percent(tasks, greatest)
    rule = model.published(at_greatest)
    yield rule.name
    if is_at_one(at_greatest, rule):
        yield 'at 1'


def outcomes_of_accept(case, text):
    number, sets, _ = map(int, case.words)
    counts = [int(line.split()[1]) for line in text.splitlines()]
    if counts[2] > 0:
        yield 'some at 120'
    if counts[2] < sets:
        yield 'not all at 120'
    if number + sets == 2 ** 64 - 1:
        yield 'the last number'


OUTCOMES_OF = {
    'partition': outcomes_of_partition, 'runall': outcomes_of_runall, 'stretch': outcomes_of_stretch,
    'accept': outcomes_of_accept}


def breaks_the_law(case, text):
    """Whether a job is late in a legal trace under a rule that holds, which is proved never to be."""
    if case.second is None or not text.startswith('legal late') or text == 'legal late 0\n':
        return False
    return model.holds(model.read_tasks(case.tree), rule_of(case))


# ---- The comparison ----

def contents_of(dice, case):
    texts = ([] if case.tree is None else [toml_text(dice, case.tree)]) + ([] if case.second is None else [case.second])
    return [text.encode() for text in texts]


def told(answer):
    status, text, errors = answer
    return f'status {status}, {text[:200]}' + (f' and {errors[:200]} on standard error' if errors else '')


def is_right(case, wanted, found):
    """Whether the program's answer is the model's, or of the many live traces is one."""
    status, text = wanted
    if text is None:
        is_live = model.live_fault(model.read_set(case.tree), int(case.words[0]), found[1].decode()) is None
        return (found[0], found[2]) == (status, b'') and is_live
    return found == (status, text.encode(), b'')


class Comparison:
    """What came of the cases so far."""

    def __init__(self, program):
        self.runner = Runner(program)
        self.statuses = {form: collections.Counter() for form in STATUSES}
        self.came = collections.Counter()
        self.faults = 0

    def fault(self, number, case, contents, words):
        self.faults += 1
        print(f'case {number}, {keep(number, case.command, contents, case.words)}: {words}')

    def compare(self, number, case, contents):
        status, text = wanted = model.answer(case.command, case.tree, case.second, case.words)
        found = self.runner.run(case.command, contents, case.words)
        self.statuses[case.form()][status] += 1
        if not is_right(case, wanted, found):
            of_model = 'a live trace' if text is None else told((status, text.encode(), b''))
            self.fault(number, case, contents, f'{told(found)}; of the model: {of_model}')
            return
        self.came.update(outcomes(case, status, found[1].decode()))
        if breaks_the_law(case, found[1].decode()):
            self.fault(number, case, contents, 'late though the rule holds')
        if case.twin is not None:
            self.compare_twin(number, case, contents, wanted)

    def compare_twin(self, number, case, contents, first_answer):
        """The same trace as another text: the answer is the same, except for the line of a record that is refused."""
        contents = contents[:1] + [case.twin.encode()]
        status, text = wanted = model.answer(case.command, case.tree, case.twin, case.words)
        found = self.runner.run(case.command, contents, case.words)
        if not is_right(case, wanted, found):
            self.fault(number, case, contents, f'{told(found)}; of the model: {told((status, text.encode(), b""))}')
        if wanted != first_answer and not (status == first_answer[0] == 5 and text.startswith('trace line')):
            self.fault(number, case, contents, f'{told((status, text.encode(), b""))}; of another text: {first_answer}')


def tell_outcomes(came):
    for form, wanted in OUTCOMES.items():
        print(f'{form}: ' + ', '.join(f'{came[form, words]} with "{words}"' for words in wanted))


def never_came(statuses, came):
    return [
        f'{form}: status {status}' for form in STATUSES for status in STATUSES[form] if not statuses[form][status]] + [
        f'{form}: {words}' for form in OUTCOMES for words in OUTCOMES[form] if not came[form, words]]


def main(words):
    program, count, seed = program_count_seed(words, DEFAULT_CASES)
    dice = Dice(seed)
    comparison = Comparison(program)
    for number, case in enumerate(cases(count, dice), 1):
        comparison.compare(number, case, contents_of(dice, case))
    tell(comparison.statuses)
    tell_outcomes(comparison.came)
    missing = never_came(comparison.statuses, comparison.came) if count >= DEFAULT_CASES else []
    for what in missing:
        print(f'never came: {what}')
    print(f'compare: seed {seed}, {count} cases, {comparison.faults} differ from the model')
    return 1 if comparison.faults or missing else 0


if __name__ == '__main__':
    ends(main, __doc__)
