"""Random calls of the Python package by a seed. In turn:

- a call with values of wrong types and out of range, and with lists that change or fail while they are read. It returns, or
  raises TypeError, ValueError, an exception of the package, or what its own list raised;
- events of a scheduler or a monitor among such calls. Its rows stay legal, and it cannot be copied or pickled;
- a call on a good set, whose result is compared with fractions that are computed here from the definitions, and a verdict with
  that of model.py;
- a file in one of many forms, mostly with a damage: it is read where the program reads it, with values of which the program
  says what it says of the file, and refused with the program's message elsewhere.

At the end threads share lists and handles, and exceptions come back from a process pool. The lengths that are passed to the
library are measured all the while. The output depends on CALLS and SEED alone. EDFVD_LIBRARY may name a library with the
compiler's sanitizers.

usage: python_fuzz.py [CALLS [SEED]]
       20000 calls without CALLS, with seed 1 without SEED
"""

import copy
import functools
import math
import multiprocessing
import pickle
import random
import sys
import threading
import traceback
from collections import Counter
from concurrent.futures import ProcessPoolExecutor
from decimal import Decimal
from fractions import Fraction
from pathlib import Path

import with_tools
import model
from usage import ends, numbers

PYTHON = Path(__file__).resolve().parents[1] / 'python'
PERIODS = [1, 2, 3, 4, 5, 6, 8, 10, 12, 20]
NAMES = ['t0', 't1', 't2', 'ctl']
FILE = b"task = [{name='t0', level='low', period=4, low=2}]"


# What a list of the caller raises by itself.
class Boom(Exception):
    pass


# An object that fails when it is looked at.
class Failing:
    def __getattr__(self, name):
        raise Boom if not name.startswith('__') else AttributeError(name)


# A number that says that it is in every range.
class Boundless(int):
    __lt__ = __le__ = __gt__ = __ge__ = lambda self, other: True


# Text and numbers that no call expects, or hardly any, and values of other types.
WILD = [
    None, True, 0, 1, 3, -1, 2**31, 2**32 - 1, 2**32, 2**32 + 1, 2**64 - 1, 2**64, 10**30, -10**5000, 1.5, math.nan, math.inf, 1j,
    '', 't0', 'high', 'x' * 33, 'x' * 10**5, 'a,b', 'a"', 'a\n', 'a\0', '\ud800', '\u00e9', b'', b'high', bytearray(b'a'),
    memoryview(b'abcd').cast('I'), [], (), {}, range(3), object(), int, len, Fraction(0), Fraction(1, 3), Fraction(3, 2),
    Fraction(-1), Fraction(1, 2**60), Fraction(1, 2**64 + 1), Decimal('0.5'), Failing(), Boundless(5), Boundless(2**40), Exception(),
    NotImplemented, ...,
]


# The package and its classes are imported late, so that `--help` needs no library.
def load():
    sys.path[:0] = [str(PYTHON), str(PYTHON / 'tests')]
    global edfvd, measured, ALLOWED, ChangingTask
    try:
        import edfvd
        from measured import measured
    except ImportError as error:
        sys.exit(f'python_fuzz.py: {error}')
    ALLOWED = (TypeError, ValueError, edfvd.EdfvdError, Boom)

    # A task that calls a function each time its low budget is read.
    class ChangingTask(edfvd.Task):
        hook = None

        def __getattribute__(self, name):
            if name == 'low':
                ChangingTask.hook()
            return super().__getattribute__(name)


# ---- What is passed ----

# The value, or once in a while a wild one.
def perhaps(dice, value, share=0.1):
    return dice.choice(WILD) if dice.random() < share else value


# A number for a parameter of which a large value is allowed, and takes long.
def small(dice, least, most):
    value = perhaps(dice, dice.randint(least, most))
    return value if not isinstance(value, int) or not most < value < 2**32 else 2**32


# A good set of up to five tasks.
def good_set(dice):
    tasks = []
    for place in range(dice.randint(1, 5)):
        period, level = dice.choice(PERIODS), dice.choice(['low', 'high'])
        low = dice.randint(1, max(1, period // 2))
        high = None if level == 'low' else dice.randint(low, low + max(1, period // 3))
        tasks.append(edfvd.Task(f't{place}', level, period, low, high))
    return tasks


# A list of the elements in one of several forms: as it is, an iterator, one that fails at its end, or no list at all.
def formed(dice, elements):
    def failing():
        yield from elements
        raise Boom
    return perhaps(dice, dice.choice([elements, elements, tuple(elements), iter(elements), failing()]))


# A set of which fields and elements may be wild.
def wild_set(dice):
    tasks = []
    for task in good_set(dice):
        fields = [perhaps(dice, value, 0.04) for value in (task.name, task.level, task.period, task.low, task.high)]
        tasks.append(perhaps(dice, edfvd.Task(*fields), 0.04))
    if dice.random() < 0.2:
        tasks = changing_set(dice, tasks)
    return formed(dice, tasks)


# A set that grows, shrinks or turns while its second to last element is read.
def changing_set(dice, tasks):
    more = [edfvd.Task(f'x{place}', 'low', 100, 1) for place in range(dice.randint(1, 140))]
    ChangingTask.hook = dice.choice([lambda: tasks.extend(more), tasks.clear, tasks.reverse, lambda: None])
    tasks.insert(max(0, len(tasks) - 1), ChangingTask('changing', 'low', 1000, 1))
    return tasks


def wild_row(dice):
    fields = [dice.choice(list(edfvd.Event)), dice.choice([*NAMES, None]), dice.randint(0, 3)]
    return perhaps(dice, edfvd.Row(*[perhaps(dice, field) for field in fields]))


def wild_demands(dice):
    demands = []
    for place in range(dice.randint(0, 4)):
        period = dice.choice(PERIODS)
        fields = [f't{place}', period, dice.randint(1, period), dice.randint(1, 3)]
        demands.append(edfvd.Demand(*[perhaps(dice, field, 0.05) for field in fields]))
    return formed(dice, demands)


def wild_jobs(dice):
    jobs = [edfvd.Job(dice.choice(NAMES), dice.randint(0, 40), dice.randint(1, 4)) for _ in range(dice.randint(0, 5))]
    return formed(dice, [edfvd.Job(*[perhaps(dice, field, 0.05) for field in job]) for job in jobs])


def wild_words(dice):
    words = dice.choice([['check', '1'], ['judge', '1', '2'], ['run', '1', '2', '9'], ['chart', '2', '1'], ['soak', '1', '4', '9']])
    return formed(dice, [perhaps(dice, word, 0.05) for word in words])


def wild_bytes(dice):
    return perhaps(dice, dice.choice([b'', FILE, bytearray(FILE), b'event,tick,task,job,how\n', b'task,release,need\n']))


def wild_scale(dice):
    return perhaps(dice, dice.choice([None, Fraction(1), Fraction(2, 5)]))


# An array of rows or of tasks with random numbers, or something else that has a buffer, or nothing of the kind.
def wild_array(dice):
    kind, width = dice.choice([(edfvd._library.CRow, 3), (edfvd._library.CTask, 4)])
    array = (kind * 5)(*[tuple(dice.choice([0, 1, 2, 9, 10, 2**32 - 1]) for _ in range(width)) for _ in range(5)])
    view = memoryview(array)
    return perhaps(dice, dice.choice([array, view, view[::-1], view[1:1], bytes(array), memoryview(bytes(array)).cast('I')]))


# A call with values of any kind.
def wild_call(dice):
    tasks = wild_set(dice)
    rows = formed(dice, [wild_row(dice) for _ in range(dice.randint(0, 6))])
    dice.choice([
        lambda: edfvd.write_tasks(tasks, scale=wild_scale(dice)), lambda: edfvd.write_trace(tasks, rows),
        lambda: edfvd.read_tasks(text=wild_bytes(dice)), lambda: edfvd.read_trace(tasks, text=wild_bytes(dice)),
        lambda: edfvd.read_work(tasks, text=wild_bytes(dice)), lambda: edfvd.chart(tasks, rows, wild_scale(dice)),
        lambda: edfvd.svg(tasks, rows, perhaps(dice, 0), perhaps(dice, 5)), lambda: edfvd.Trace.of(rows),
        lambda: edfvd.check(tasks), lambda: edfvd.stretch(tasks), lambda: edfvd.partition(tasks, small(dice, 1, 16)),
        lambda: edfvd.accept(perhaps(dice, 7), small(dice, 1, 3), small(dice, 2, 8)),
        lambda: edfvd.demand(wild_demands(dice)),
        lambda: edfvd.judge(tasks, rows, wild_scale(dice)),
        lambda: edfvd.judge(tasks, wild_array(dice), wild_scale(dice)),
        lambda: list(edfvd.check_many(formed(dice, [tasks, good_set(dice)]))),
        lambda: list(edfvd.check_many(wild_array(dice), formed(dice, sorted(small(dice, 0, 5) for _ in range(3))))),
        lambda: edfvd.run(tasks, wild_jobs(dice), small(dice, 1, 60)),
        lambda: edfvd.ask(wild_words(dice), wild_bytes(dice), wild_bytes(dice)),
    ])()


# ---- Handles ----

# One event of a scheduler, mostly one that may come.
def scheduler_event(dice, scheduler):
    look, task = scheduler.look(), perhaps(dice, dice.choice(NAMES))
    if look.out and dice.random() < 0.9:
        scheduler.outcome(*look.out, done=perhaps(dice, dice.random() < 0.3))
    elif look.chosen and dice.random() < 0.6:
        scheduler.grant(look.chosen[0])
    else:
        dice.choice([
            lambda: scheduler.release(task), lambda: scheduler.release(task), scheduler.idle, lambda: scheduler.grant(task),
            lambda: scheduler.outcome(task, perhaps(dice, 1), done=True), lambda: list(scheduler.rows(perhaps(dice, 2))),
            lambda: scheduler.row_array(perhaps(dice, 2)),
        ])()


def monitor_event(dice, monitor):
    dice.choice([
        lambda: monitor.observe(wild_row(dice), perhaps(dice, 1)), lambda: monitor.would_fit(wild_row(dice), perhaps(dice, 1)),
        lambda: monitor.late(perhaps(dice, 0)), monitor.verdict, monitor.look,
        lambda: monitor.observe_all(formed(dice, [wild_row(dice) for _ in range(3)])), lambda: monitor.observe_all(wild_array(dice)),
    ])()


# What must not change a handle that is open.
def refused_ways(dice, handle, seen):
    way = dice.choice([copy.copy, copy.deepcopy, pickle.dumps, lambda own: type(own).__init__(own, wild_set(dice), None)])
    try:
        way(handle)
        raise AssertionError(f'{way} of a handle was not refused')
    except ALLOWED as error:
        seen[type(error).__name__] += 1


# A handle over a set of any kind, or None if it is not opened, and what makes an event of it.
def opened(dice, tasks, seen):
    kind = dice.randrange(3)
    try:
        if kind == 0:
            return edfvd.Monitor(tasks, wild_scale(dice)), monitor_event
        return edfvd.Scheduler(tasks, small(dice, 1, 60) if kind == 1 else None), scheduler_event
    except ALLOWED as error:
        seen[type(error).__name__] += 1
        return None, None


# Events of any kind. The rows of a scheduler are those of a schedule in which no job is late.
def handle_calls(dice, seen):
    is_good = dice.random() < 0.8
    tasks = good_set(dice) if is_good else wild_set(dice)
    handle, event = opened(dice, tasks, seen)
    if handle is None:
        return
    for _ in range(dice.randint(0, 30)):
        try:
            event(dice, handle)
            seen['returned'] += 1
        except ALLOWED as error:
            seen[type(error).__name__] += 1
        if dice.random() < 0.1:
            refused_ways(dice, handle, seen)
    if is_good and event is scheduler_event:
        agree(edfvd.judge(tasks, handle.row_array()), edfvd.Verdict(None, None, 0, None), 'an array of a schedule', tasks)
        agree(edfvd.judge(tasks, handle.rows()), edfvd.Verdict(None, None, 0, None), 'a schedule', tasks)
    if dice.random() < 0.5:
        handle.close()


# ---- Results beside the definitions ----

def agree(found, wanted, what, *given):
    if found != wanted:
        raise AssertionError(f'{what} {given}: {found}, and not {wanted}')


def load_of(tasks, level, budget):
    return sum((Fraction(budget(task), task.period) for task in tasks if task.level == level), Fraction(0))


# The published test, for the high budgets at a percentage: the loads, the rule and the scale.
def tested(tasks, percent=100):
    low_low, high_low = (load_of(tasks, level, lambda task: task.low) for level in ('low', 'high'))
    high_high = load_of(tasks, 'high', lambda task: max(task.low, task.high * percent // 100))
    if low_low + high_high <= 1:
        return low_low, high_low, high_high, edfvd.Rule.PLAIN, None
    scale = high_low / (1 - low_low) if low_low < 1 else None
    if scale is not None and scale * low_low + high_high <= 1:
        return low_low, high_low, high_high, edfvd.Rule.VIRTUAL, scale
    return low_low, high_low, high_high, None, None


def stretch_of(tasks):
    return max((percent for percent in range(1001) if tested(tasks, percent)[3]), default=None)


# First fit, or the name of the first task that fits nowhere.
def first_fit(tasks, processors):
    parts = [[] for _ in range(processors)]
    for task in tasks:
        part = next((part for part in parts if tested([*part, task])[3]), None)
        if part is None:
            return task.name
        part.append(task)
    return [[task.name for task in part] for part in parts]


# The least length whose demand is above it, with that demand; otherwise the hyperperiod.
def demand_of(tasks):
    hyperperiod = math.lcm(*(task.period for task in tasks))
    for length in range(1, hyperperiod + 1):
        asked = sum(((length - task.deadline) // task.period + 1) * task.budget for task in tasks if task.deadline <= length)
        if asked > length:
            return False, length, asked
    return True, hyperperiod, None


def exact_tests(dice):
    tasks = good_set(dice)
    found = edfvd.check(tasks)
    agree((found.low_low, found.high_low, found.high_high, found.rule, found.scale), tested(tasks), 'check', tasks)
    both = [tasks, good_set(dice)]
    agree(list(edfvd.check_many(both)), [edfvd.check(one) for one in both], 'check_many', both)
    fields = [(int(task.level == 'high'), task.period, task.low, task.high or task.low) for one in both for task in one]
    array = (edfvd._library.CTask * len(fields))(*fields)
    agree(list(edfvd.check_many(array, [0, len(tasks), len(fields)])), [edfvd.check(one) for one in both], 'check_many', fields)
    processors = dice.randint(1, 4)
    try:
        parts = edfvd.partition(tasks, processors)
    except edfvd.Refused as refused:
        agree(refused.status, edfvd.Status.NO_PROCESSOR, 'partition', tasks)
        parts = refused.task
    agree(parts, first_fit(tasks, processors), 'partition', tasks, processors)


def exact_stretch(dice):
    tasks = good_set(dice)
    agree(edfvd.stretch(tasks), stretch_of(tasks), 'stretch', tasks)


def exact_demand(dice):
    tasks = []
    for place in range(dice.randint(1, 4)):
        period = dice.choice(PERIODS)
        tasks.append(edfvd.Demand(f't{place}', period, dice.randint(1, period), dice.randint(1, 3)))
    found = edfvd.demand(tasks)
    agree((found.schedulable, found.length, found.demand), demand_of(tasks), 'demand', tasks)
    agree(bool(found.counterexample), not found.schedulable, 'counterexample', tasks)


# Rows that mostly fit: each is the first of some random ones of which the monitor says so.
def likely_rows(dice, tasks, scale):
    rows, counts = [], Counter()
    with edfvd.Monitor(tasks, scale) as monitor:
        for _ in range(dice.randint(1, 25)):
            for _ in range(dice.choice([1, 12])):
                event = dice.choice([event for event in edfvd.Event if event.name not in ('HELD', 'GIVEN')])
                task = dice.choice(tasks).name
                count = counts[task] + (event.name in ('KEPT', 'DROPPED'))
                row = edfvd.Row(event, task, count) if event.name != 'IDLE' else edfvd.Row(event)
                if monitor.would_fit(row) is None:
                    break
            rows.append(row)
            monitor.observe(row)
            counts[task] = count if row.task else counts[task]
        return rows, monitor.verdict()


# The rows as model.py has them.
def model_runs(tasks, rows):
    numbers_of, runs, tick = {task.name: number for number, task in enumerate(tasks, 1)}, [], 0
    for row in rows:
        runs.append(model.Run(row.event.name.lower(), tick, model.Job(numbers_of[row.task], row.count) if row.task else None))
        tick += row.event.name not in ('KEPT', 'DROPPED')
    return runs


def exact_verdict(dice):
    tasks, scale = good_set(dice), Fraction(dice.randint(1, 5), 5)
    rows, watched = likely_rows(dice, tasks, scale)
    found = edfvd.judge(tasks, rows, scale)
    agree(watched, found, 'a monitor', tasks, rows, scale)
    for given in (rows, edfvd.Trace.of(rows)):
        with edfvd.Monitor(tasks, scale) as monitor:
            unfit = monitor.observe_all(given)
            agree(unfit and unfit.place, found.place, 'observe_all', tasks, rows, scale)
            agree(monitor.verdict(), found, 'observe_all', tasks, rows, scale)
    if found.legal:
        line = f'legal late {found.late}' + (' first {} {}'.format(*found.first) if found.first else '')
    else:
        line = f'illegal row {found.place} {found.why.name.lower()}'
    given = [model.Task(task.name, task.level, task.period, task.low, task.high or task.low) for task in tasks]
    rule = model.virtual(scale.numerator, scale.denominator)
    agree(f'{line}\n', model.verdict(given, rule, model_runs(tasks, rows))[1], 'judge', tasks, rows, scale)


# ---- Files ----

# The text with some of its characters changed, taken away, doubled or put elsewhere, in half of the cases.
def damaged(dice, text):
    while text and dice.random() < 0.4:
        at = dice.randrange(len(text))
        piece = dice.choice(['', text[at] * 2, dice.choice('"\'\\[]{},=.#\n\r 09x_'), text[dice.randrange(len(text)):][:9]])
        text = text[:at] + piece + text[at + 1:]
    return text


# A number, a word and a table in one of the forms that TOML 1.0 and 1.1 have for it.
def toml_number(dice, number):
    return dice.choice([str(number), f'+{number}', f'0x{number:x}', f'0o{number:o}', f'0b{number:b}'])


def escaped(dice, word):
    return ''.join(dice.choice([one, one, f'\\x{ord(one):02x}', f'\\u{ord(one):04X}']) for one in word)


def toml_key(dice, word):
    return dice.choice([word, f'"{word}"', f"'{word}'", f'"{escaped(dice, word)}"'])


def toml_word(dice, word):
    return dice.choice([f'"{word}"', f"'{word}'", f'"{escaped(dice, word)}"', f'"""{escaped(dice, word)}"""', f"'''\n{word}'''"])


def toml_table(dice, task):
    pairs = [('name', toml_word(dice, task.name)), ('level', toml_word(dice, task.level))]
    pairs += [(key, toml_number(dice, value)) for key, value in vars(task).items() if isinstance(value, int)]
    dice.shuffle(pairs)
    pairs = [f'{toml_key(dice, key)} = {value}' for key, value in pairs]
    blank = dice.choice(['', ' ', '\n', ' # "}\n'])
    return '{' + blank + f',{blank}'.join(pairs) + dice.choice(['', ',']) + blank + '}'


# What the program says of files: whether its readers take them, or their message, and the verdict.
def said(*texts):
    ended, reply = edfvd.ask(['judge', '1', '2', '1', '1'], *(text.encode() for text in texts))
    return (ended, reply.decode()) if ended in (0, 6) else edfvd.CommandRefused(ended, reply.decode().rstrip('\n'))


# The value of the call, or the refusal that it raises, which must be that of the program, if that refuses.
def as_said(found, call, what, *given):
    try:
        value = call()
    except edfvd.CommandRefused as refused:
        agree((refused.exit_status, str(refused)), (getattr(found, 'exit_status', None), str(found)), what, *given)
        return None
    agree(isinstance(found, edfvd.CommandRefused), False, what, *given)
    return value


def exact_task_file(dice):
    tasks = good_set(dice)
    head = dice.choice(['', 'version = 1\n', 'version = 2\nscale = [2, 4]\n'])
    tables = dice.choice([', ', ',\n']).join(toml_table(dice, task) for task in tasks)
    text = damaged(dice, f'{head}task = [{tables}]\n')
    rows = 'event,tick,task,job,how\n'
    found = as_said(said(text, rows), lambda: edfvd.read_tasks(text=text), 'read_tasks', text)
    if found is not None:
        again = edfvd.write_tasks(found.tasks, scale=found.scale)
        agree(edfvd.ask(['check', '1'], again.encode()), edfvd.ask(['check', '1'], text.encode()), 'check', text, again)
        agree(edfvd.read_tasks(text=again), found, 'write_tasks', text)


def exact_trace_file(dice):
    tasks, scale = good_set(dice), Fraction(1)
    rows, _ = likely_rows(dice, tasks, scale)
    text = edfvd.write_trace(tasks, rows)
    agree(list(edfvd.read_trace(tasks, text=text)), rows, 'read_trace', text)
    text, first = damaged(dice, text), edfvd.write_tasks(tasks)
    verdict = said(first, text)
    found = as_said(verdict, lambda: edfvd.read_trace(tasks, text=text), 'read_trace', text)
    if found is not None:
        agree(said(first, edfvd.write_trace(tasks, found)), verdict, 'write_trace', text)
        if len(found) < 10**6:
            agree(edfvd.judge(tasks, found, scale).legal, verdict[1].startswith('legal'), 'judge', text)


# ---- Threads and processes ----

# Runs the functions side by side, and passes on what one of them raises.
def side_by_side(*functions):
    raised = []

    def guarded(function):
        try:
            function()
        except BaseException as error:
            raised.append(error)

    threads = [threading.Thread(target=guarded, args=(function,)) for function in functions]
    for thread in threads:
        thread.start()
    for thread in threads:
        thread.join()
    if raised:
        raise raised[0]


# Two threads change a list while this one has it read.
def shared_list(dice):
    tasks, done = [edfvd.Task(f't{place}', 'low', 100_000, 1) for place in range(100)], threading.Event()
    kept = list(tasks)

    def change():
        while not done.is_set():
            tasks.extend(kept[20:])
            del tasks[20:]

    def read():
        try:
            for call in (edfvd.check, edfvd.stretch, lambda given: edfvd.partition(given, 2), edfvd.Monitor):
                for _ in range(100):
                    try:
                        call(tasks)
                    except ALLOWED:  # the list may have a task in it twice, or too many
                        pass
        finally:
            done.set()

    side_by_side(change, read)


# Threads share a scheduler: each of its events is refused or made alone. Then one of them closes it while they go on.
def shared_handle(dice):
    tasks = [edfvd.Task('t0', 'low', 4, 2), edfvd.Task('t1', 'high', 10, 1, 3)]
    scheduler = edfvd.Scheduler(tasks, 20_000)

    def drive(seed):
        own = random.Random(seed)
        for _ in range(400):
            try:
                scheduler_event(own, scheduler)
            except ALLOWED:
                pass

    def close():
        while True:
            try:
                return scheduler.close()
            except edfvd.Refused as refused:
                agree(refused.status, edfvd.Status.BUSY, 'close')

    drives = [functools.partial(drive, dice.random()) for _ in range(3)]
    side_by_side(*drives)
    agree(edfvd.judge(tasks, scheduler.rows()), edfvd.Verdict(None, None, 0, None), 'a schedule that threads share', tasks)
    side_by_side(*drives, close)
    agree(outcome(scheduler.idle)[1], 'closed', 'a closed scheduler')


# The result of a call, or what it raises.
def outcome(call, *given):
    try:
        return call(*given)
    except ALLOWED as error:
        return type(error), str(error), vars(error)


# Sets in another process, and the refusals that come back from it.
def pooled(dice):
    calls = [(edfvd.check, tasks) for tasks in ([], [edfvd.Task('a', 'low', 0, 1)], good_set(dice), [5])]
    for _ in range(10):
        calls += [(edfvd.partition, good_set(dice), 1), (edfvd.run, good_set(dice), [edfvd.Job('t1', 0, 1)], 9)]
    with ProcessPoolExecutor(2, multiprocessing.get_context('spawn')) as pool:
        futures = [pool.submit(*call) for call in calls]
        for call, future in zip(calls, futures):
            agree(outcome(future.result), outcome(*call), 'in a pool', call)


# ---- The words ----

def one_call(dice, seen):
    kind = dice.random()
    if kind < 0.55:
        try:
            wild_call(dice)
            seen['returned'] += 1
        except ALLOWED as error:
            seen[type(error).__name__] += 1
    elif kind < 0.75:
        handle_calls(dice, seen)
    elif kind < 0.99:
        dice.choice([exact_tests, exact_tests, exact_demand, exact_verdict, exact_verdict, exact_task_file, exact_trace_file])(dice)
    else:
        exact_stretch(dice)


def main(words):
    count, seed = numbers(words, 20_000, 1)
    load()
    dice, seen, call = random.Random(seed), Counter(), 0
    try:
        with measured():
            for call in range(1, count + 1):
                one_call(dice, seen)
            for shared in (shared_list, shared_handle, pooled):
                call = shared.__name__
                shared(dice)
    except Exception:
        traceback.print_exc()
        print(f'python_fuzz: seed {seed}: {call} is wrong', file=sys.stderr)
        return 1
    print(f'python_fuzz: seed {seed}: {count} calls', *(f'{kind} {times}' for kind, times in sorted(seen.items())), sep=', ')
    return 0


if __name__ == '__main__':
    ends(main, __doc__)
