"""Tries the demand test of model.py against runs under plain EDF that are made by a seed.

Of small sets by chance, each within is run again and again, with releases as late and ends as early as chance has them and
ties by chance: none of its jobs may be late. Each that is past has its counterexample judged row by row: it is a run of
the least length, with what is said of it, and a job is late in it, while nothing shorter asks for too much.

usage: demand_runs.py [SETS [SEED]]
"""

import random

import with_tools
import model
from model import Demand, EdfRow, Job
from usage import ends, numbers

PERIODS = [1, 2, 3, 4, 5, 6, 8, 10, 12]


# A set of one to four tasks.
def set_of(dice):
    periods = [dice.choice(PERIODS) for _ in range(dice.randint(1, 4))]
    budgets = [dice.choice([1, 1, 2, period]) for period in periods]
    deadlines = [dice.randint(1, period) for period in periods]
    return [Demand('abcd'[k], *numbers) for k, numbers in enumerate(zip(periods, deadlines, budgets))]


# A run of `ticks` ticks. Each task that may release does so with one likelihood for the whole run, in any order. Of the pending jobs
# one with the earliest deadline has the tick, which is sometimes its last.
def run_of(dice, demands, ticks):
    rows, likelihood = [], dice.choice([0.2, 0.6, 0.95])
    for now in range(ticks):
        for task in dice.sample(range(1, len(demands) + 1), len(demands)):
            count = 1 + sum(released.job.task == task for released in model.edf_jobs(rows))
            row = EdfRow('release', Job(task, count))
            if dice.random() < likelihood and model.edf_misfit(demands, rows, row) is None:
                rows.append(row)
        waiting = model.edf_pending(demands, rows)
        ends = [model.edf_deadline(demands, released) for released in waiting]
        first = [released.job for released, end in zip(waiting, ends) if end == min(ends)]
        rows.append(EdfRow('tick', dice.choice(first), dice.random() < 0.05) if first else EdfRow('idle'))
    return rows


# What is wrong with the counterexample of a set that is past this length, or None.
def counter_fault(demands, length):
    rows = model.counterexample(demands, length)
    jobs = model.edf_jobs(rows)
    wanted = sorted(
        (now, number, now // task.period + 1)
        for number, task in enumerate(demands, 1) for now in range(0, length, task.period))
    if not model.is_edf_run(demands, rows):
        return 'no run'
    if model.edf_ticks(rows) != length:
        return 'another length'
    if [(released.release, *released.job) for released in jobs] != wanted:
        return 'other releases'
    if any(row.last for row in rows):
        return 'a job ends early'
    for place, row in enumerate(rows):
        waiting = model.edf_pending(demands, rows[:place])
        ends = {released.job: model.edf_deadline(demands, released) for released in waiting}
        if row.event == 'tick' and any(
                ends[job] == ends[row.job] and job.task < row.job.task for job in ends):
            return 'a tie goes to a higher number'
    return None if model.edf_late(demands, rows) else 'no job is late'


def main(words):
    count, seed = numbers(words, 300, 1)
    dice = random.Random(seed)
    within = past = runs = late = 0
    for _ in range(count):
        demands = set_of(dice)
        multiple = model.hyperperiod(demands)
        for length in range(2 * multiple):
            asked = model.demand(demands, length) + model.demand(demands, multiple)
            assert model.demand(demands, length + multiple) == asked, demands
        length = model.first_past(demands)
        if length is None:
            within += 1
            for _ in range(3):
                runs += 1
                rows = run_of(dice, demands, min(2 * multiple, 40) + 5)
                assert model.edf_late(demands, rows) == [], (demands, rows)
        else:
            past += 1
            assert all(model.demand(demands, shorter) <= shorter for shorter in range(length)), demands
            assert counter_fault(demands, length) is None, (demands, length, counter_fault(demands, length))
            late += bool(model.edf_late(demands, run_of(dice, demands, min(2 * multiple, 40) + 5)))
    print(f'demand runs: {count} sets, {within} within and {runs} runs of them without a late job, {past} past, '
          f'each with its counterexample; {late} of as many other runs of these had a late job')
    return 0


if __name__ == '__main__':
    ends(main, __doc__)
