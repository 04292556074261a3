"""Writes random traces, legal ones and ones with a changed row, with what checks/model.py says of each, as JSON on standard output: the row
that does not fit and the jobs, keys and budgets that it is about; or the late jobs, the counts and the ticks beyond a low budget.

usage: reasons.py COUNT SEED
"""

import json
import pathlib
import sys
from fractions import Fraction

ROOT = pathlib.Path(__file__).resolve().parent.parent.parent
sys.path[:0] = [str(ROOT / 'checks'), str(ROOT / 'tools')]
import compare  # noqa: E402
import model  # noqa: E402
from cases import Dice  # noqa: E402
from usage import WrongWords, ends, whole_number  # noqa: E402


def other_job_case(dice):
    """A trace with a tick of another job that was released before it, whether or not it is pending."""
    tasks = compare.admitted_tasks(dice)
    task_set, tree = compare.without_scale(dice, tasks)
    runs = compare.some_trace(dice, tasks, model.test(task_set))
    place = dice.one_of([place for place, run in enumerate(runs) if run.kind in model.TICKS] or [0])
    released = [run for run in runs[:place] if run.kind in model.RELEASES]
    odd = [run for run in released if run.kind == model.DROPPED or model.is_low(tasks, run.job)]
    if released:
        runs = [*runs[:place], runs[place]._replace(job=dice.one_of(odd or released).job), *runs[place + 1:]]
    return compare.Case('judge', tree, compare.texts_of(dice, tasks, runs)[0], [])


MAKERS = [compare.judge_case, compare.judge_by_scale_case, lambda dice: compare.judge_case(dice, compare.with_scale), other_job_case]


def task_file(tasks):
    return ''.join(f'[[task]]\nname = "{task.name}"\nlevel = "{task.level}"\nperiod = {task.period}\nlow = {task.low}\n'
                   + (f'high = {task.high}\n' if task.level == model.HIGH else '') for task in tasks)


def rule_words(rule):
    return [] if rule == model.PLAIN else [str(rule.p), str(rule.q)]


def named(tasks, job):
    return f'{model.task_of(tasks, job).name} {job.count}'


def keyed(tasks, rule, before, job):
    """A pending job with its key, and whether this is a virtual deadline."""
    is_high_mode = model.is_high_mode(rule, before)
    key = Fraction(model.keys(tasks, rule, before, [job])[job], rule.q)
    is_virtual = rule != model.PLAIN and not is_high_mode and not model.is_low(tasks, job)
    return [named(tasks, job), f'{key.numerator}/{key.denominator}', is_virtual]


def first(tasks, rule, before):
    """The pending job of the least key, and of equal keys that of the first task."""
    keys = model.keys(tasks, rule, before, model.pending(tasks, before))
    return keyed(tasks, rule, before, min(keys, key=lambda job: (keys[job], job.task)))


def whereabouts(tasks, before, job):
    """Why a job is not pending."""
    released = [row for row in model.releases_of(before, job.task) if row.job == job]
    if not released:
        return ['never', len(model.releases_of(before, job.task))]
    if released[0].kind == model.DROPPED:
        return ['dropped', released[0].tick]
    for row in before.of(model.DONE, model.STOP):
        if row.job == job:
            return [row.kind, row.tick + 1]
    return ['discarded', min(over.tick for over in before.of(model.OVER) if over.tick >= released[0].tick) + 1]


def facts(tasks, rule, before, row, why):
    if why == 'too_soon':
        release = max(release.tick for release in model.releases_of(before, row.job.task))
        return [model.task_of(tasks, row.job).name, release, release + model.task_of(tasks, row.job).period]
    if why == 'wrong_count':
        return [model.task_of(tasks, row.job).name, len(model.releases_of(before, row.job.task))]
    if why == 'wrong_kept':
        return [model.task_of(tasks, row.job).name, model.task_of(tasks, row.job).level]
    if why == 'not_pending':
        return [named(tasks, row.job), *whereabouts(tasks, before, row.job)]
    if why == 'not_least':
        return [keyed(tasks, rule, before, row.job), first(tasks, rule, before)]
    if why == 'wrong_how':
        return [named(tasks, row.job), model.used(before, row.job) + 1, ['done', model.how_of(tasks, rule, before, row.job)]]
    return [first(tasks, rule, before)]


def illegal(tasks, rule, runs):
    """The first row that does not fit, with its facts, or None."""
    row, before = 1, model.Trace()
    for run in runs:
        for piece in model.pieces(tasks, before, run):
            why = model.misfit(tasks, rule, before, piece)
            if why is not None:
                return {'row': row, 'why': why, 'isHigh': model.is_high_mode(rule, before), 'facts': facts(tasks, rule, before, piece, why)}
            row += piece.length
            before.add(piece)
    return None


def beyond(tasks, runs):
    """How many ticks of each high task are beyond the low budget of their job."""
    used = {}
    for run in runs:
        if run.kind in model.TICKS:
            used[run.job] = used.get(run.job, 0) + run.length
    return [sum(max(0, count - task.low) for job, count in used.items() if job.task == number) if task.level == model.HIGH else 0
            for number, task in enumerate(tasks, 1)]


def legal(tasks, runs):
    """What is counted of a legal trace."""
    trace = model.Trace(runs)
    sums = [model.counts(tasks, trace, number) for number in range(1, len(tasks) + 1)]
    counts = {name: sum(one[name] for one in sums) for name in ('dropped', 'discarded', 'stopped')}
    return {'late': sorted(named(tasks, job) for job in model.late(tasks, runs)), 'counts': counts, 'beyond': beyond(tasks, runs)}


def of_case(case):
    """The case with what the model says of it, or None if its set has no rule."""
    task_set = model.read_set(case.tree)
    try:
        rule = model.virtual(*map(int, case.words)) if case.words else model.admitted(task_set)
    except model.Refusal:
        return None
    tasks = task_set.tasks
    runs = model.read_trace(tasks, case.second)
    return {'tasks': task_file(tasks), 'trace': case.second, 'scale': rule_words(rule), 'illegal': illegal(tasks, rule, runs), 'legal': legal(tasks, runs)}


def main(words):
    if len(words) != 2:
        raise WrongWords
    count, seed = map(whole_number, words)
    dice, cases = Dice(seed), []
    while len(cases) < count:
        try:
            case = of_case(MAKERS[len(cases) % len(MAKERS)](dice))
        except model.Refusal:
            continue
        if case is not None:
            cases.append(case)
    json.dump(cases, sys.stdout)
    return 0


if __name__ == '__main__':
    ends(main, __doc__)
