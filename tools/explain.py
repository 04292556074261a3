"""The verdict on a trace, and for an illegal one the reasons: the line, the mode, the pending jobs, and what would fit.

It works over walk.py and rules.py, which were written from the rules alone, and calls no built program. Its
first line and its status are those of `judge`. A task file may have at most 1 MiB, and a record of the trace 131,072 characters.

usage: explain.py TASKS TRACE [P Q]
"""

import collections
from fractions import Fraction

from reading import MOST_TRACE_BYTES, Refusal, lines_of, number_between, set_in, text_file, trace_in
from rules import (
    EVENTS, IDLE, LOW, MOST, PLAIN, ROWS_HEADER, Job, Run, fields_of, first_out_of_range, loads, named, rule_of, virtual)
from usage import WrongWords, ends
from walk import Walk, go_through

# The words of `judge`, each as a sentence on the row.
SENTENCES = {
    'too_soon': 'the last release of its task is less than a period ago',
    'wrong_count': "its number is not one more than its task's releases so far",
    'wrong_kept': 'a release is dropped exactly where it is of a low task and the mode is high',
    'not_pending': 'its job is not pending',
    'not_least': 'a pending job has a smaller key',
    'wrong_how': 'the tick ends otherwise than the budgets say',
    'idle_pending': 'a job is pending, so no tick is idle',
}


# A job by its task's name.
def name_of(walk, job):
    return named(walk.task_of(job), job)


# The number of a record's row in it, where it has more than one.
def place_in_record(misfit):
    length = misfit.placed.run.length
    if length == 1:
        return ''
    return f', of which tick {misfit.run.tick} is number {misfit.run.tick - misfit.placed.run.tick + 1} of {length}'


# A line for each pending job, that of the least key first.
def pending_lines(walk):
    for job in sorted(walk.waiting, key=lambda job: (walk.key(job), job.task)):
        task, waiting = walk.task_of(job), walk.waiting[job]
        budgets = f'{task.low}' if task.level == LOW else f'{task.low} and {task.high}'
        yield (f'  {name_of(walk, job)}, {task.level}: released at {waiting.release}, '
               f'key {Fraction(walk.key(job), walk.rule.q)}, deadline {waiting.release + task.period}, '
               f'has had {waiting.used} of {budgets}')


# A record of one row, in the form of the file.
def record_of(walk, header, kind, job=None):
    fields = fields_of(walk.tasks, Run(kind, walk.ticks, job))
    if header == ROWS_HEADER:
        del fields[2]
    return ','.join(fields)


# The ticks that fit: an idle one, or one of each pending job of the least key, done or else as the budgets say.
def fitting_ticks(walk, header):
    if not walk.waiting:
        yield record_of(walk, header, IDLE)
        return
    least = walk.least()
    for job in sorted(job for job in walk.waiting if walk.key(job) == least):
        for kind in ('done', walk.how_of(job)):
            yield record_of(walk, header, kind, job)


# The release of a task that fits, and from when.
def fitting_release(walk, header, number):
    count, earliest = walk.released(number)
    if walk.ticks < earliest:
        return f'{walk.tasks[number - 1].name} may be released again from {earliest} on'
    kind = 'dropped' if walk.drops(number) else 'kept'
    return record_of(walk, header, kind, Job(number, count + 1))


# Why a job that has the tick is not pending.
def whereabouts(walk, job):
    if job in walk.left:
        left = walk.left[job]
        return f'{name_of(walk, job)} was {left.why} in line {left.line}'
    return f'{name_of(walk, job)} was not released: its task has had {walk.released(job.task)[0]} releases'


# All lines that are written for a row that does not fit.
def explanation(misfit, header):
    walk, run = misfit.walk, misfit.run
    yield f'line {misfit.placed.line}: {",".join(misfit.placed.record)}{place_in_record(misfit)}'
    yield f'{misfit.why}: {SENTENCES[misfit.why]}'
    if misfit.why == 'not_pending':
        yield whereabouts(walk, run.job)
    yield f'before it: {walk.ticks} ticks, mode {"high" if walk.high_mode else "low"}, rule {rule_words(walk.rule)}'
    yield 'pending:' if walk.waiting else 'pending: no job'
    yield from pending_lines(walk)
    yield 'fits here:'
    if EVENTS[run.kind] == 'release':
        yield f'  {fitting_release(walk, header, run.job.task)}'
    for record in fitting_ticks(walk, header):
        yield f'  {record}'


def rule_words(rule):
    return 'plain' if rule == PLAIN else f'virtual {rule.p}/{rule.q}'


# The rule of the scale that the words after the files are, or that of the set's test. A set without one is refused.
def rule_for(task_set, words):
    if words:
        p, q = (number_between(word, 1, MOST) for word in words)
        if p > q:
            raise WrongWords
        return virtual(p, q)
    number = first_out_of_range(task_set.tasks)
    if number is not None:
        raise Refusal(3, f'task file: task {number}: periods out of range')
    rule = rule_of(task_set)
    if rule is None:
        shares = zip(['U_LL', 'U_HL', 'U_HH'], loads(task_set.tasks))
        raise Refusal(1, 'not admitted: ' + ' '.join(f'{name} {load.numerator}/{load.denominator}' for name, load in shares))
    return rule


# The status, and the lines, for the header of a trace and its runs in their places. They are read to the end also after a row
# that does not fit, since a record that is none is refused before.
def explain(tasks, rule, header, trace):
    walk = Walk(tasks, rule)
    misfit = go_through(walk, trace)
    collections.deque(trace, maxlen=0)
    if misfit is not None:
        return 6, [f'illegal row {walk.rows + 1} {misfit.why}', *explanation(misfit, header)]
    late = walk.late()
    if late:
        return 6, [f'legal late {len(late)} first {name_of(walk, late[0])}']
    return 0, ['legal late 0']


def main(words):
    if len(words) not in (2, 4):
        raise WrongWords
    try:
        task_set = set_in(words[0])
        rule = rule_for(task_set, words[2:])
        with text_file(words[1], MOST_TRACE_BYTES) as file:
            status, told = explain(task_set.tasks, rule, *trace_in(task_set.tasks, lines_of(file)))
    except Refusal as refusal:
        status, told = refusal.status, [refusal.line]
    print('\n'.join(told))
    return status


if __name__ == '__main__':
    ends(main, __doc__)
