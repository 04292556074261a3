#!/usr/bin/env python3
"""Compares what the library says of what may change in a set with brute force in fractions, written from the definitions.

The sets are random, by the seed: small ones, ones whose loads are at or near 1, ones of 128 tasks, and ones with periods and
budgets up to 4,294,967,295 and hyperperiods up to 2^60. For each task every budget is tried up to its period, above which no
budget is admitted; where that is too long, the greatest one, the next one and some others. Each scale with a small denominator is
tried, and both ends with a little less and a little more. The least speed is compared with the root of its equation, and tried
with a millionth less. It needs the shared library, which c/build.sh makes.

usage: sensitivity.py SETS SEED
"""

import random
import sys
from fractions import Fraction
from math import isqrt, lcm
from pathlib import Path

sys.path.insert(0, str(Path(__file__).resolve().parent.parent / 'python'))

import with_tools
from usage import WrongWords, ends, numbers

MOST = 2**32 - 1
LONG = 400
STEPS = 10**6
A_LITTLE = Fraction(1, 10**60)


def loads(tasks):
    """U_LL, U_HL and U_HH."""
    low_low = sum((Fraction(low, period) for level, period, low, _ in tasks if level == 'low'), Fraction(0))
    high_low = sum((Fraction(low, period) for level, period, low, _ in tasks if level == 'high'), Fraction(0))
    high_high = sum((Fraction(high, period) for level, period, _, high in tasks if level == 'high'), Fraction(0))
    return low_low, high_low, high_high


def is_admitted(low_low, high_low, high_high):
    """The published test: EDF fits, or EDF-VD does with the scale U_HL / (1 - U_LL)."""
    if low_low + high_high <= 1:
        return True
    return low_low < 1 and high_low / (1 - low_low) * low_low + high_high <= 1


def holds(scale, low_low, high_low, high_high):
    """Whether EDF-VD holds with the scale."""
    return 0 < scale <= 1 and low_low + high_low / scale <= 1 and scale * low_low + high_high <= 1


def passes(others, task, which, budget):
    """Whether the set is admitted with this budget of the task; the loads are those of all other tasks."""
    level, period, low, high = task
    if which == 'high':
        high = budget
    else:
        low, high = budget, high if level == 'high' else budget
    return is_admitted(*(load + own for load, own in zip(others, loads([(level, period, low, high)]))))


def wrong_budget(tasks, place, which, greatest, chance):
    """What is wrong with the greatest budget that the library found, or None."""
    level, period, low, high = tasks[place]
    least = low if which == 'high' else 1
    most = high if (level, which) == ('high', 'low') else MOST
    if least > most:
        return f'no budget from {least} to {most}'
    if greatest is not None and not least <= greatest <= most:
        return f'{greatest} is not from {least} to {most}'
    from_here = least if greatest is None else greatest + 1
    others = loads(tasks[:place] + tasks[place + 1:])
    tried = [least, from_here - 1, from_here, from_here + 1, most, period, period + 1]
    tried += [chance.randint(least, most) for _ in range(3)]
    if period - least <= LONG:
        tried += range(least, period + 2)
    for budget in tried:
        if least <= budget <= most and passes(others, tasks[place], which, budget) != (budget < from_here):
            return f'greatest {greatest}, but {budget} is {"refused" if budget < from_here else "admitted"}'
    return None


def wrong_scales(found, three, chance):
    """What is wrong with the range of scales that the library found, or None."""
    some = [Fraction(p, q) for q in range(1, 13) for p in range(1, q + 1)]
    some += [Fraction(chance.randint(1, 10**9), 10**9) for _ in range(4)]
    if found is None:
        return next((f'none, but {scale} holds' for scale in some if holds(scale, *three)), None)
    ends_of = [found.least - A_LITTLE, found.least, found.least + A_LITTLE]
    ends_of += [found.greatest - A_LITTLE, found.greatest, found.greatest + A_LITTLE]
    for scale in some + ends_of:
        if holds(scale, *three) != (0 < scale and found.least <= scale <= found.greatest):
            return f'{found.least} to {found.greatest}, but {scale} {"holds" if holds(scale, *three) else "does not hold"}'
    if not holds(found.greatest, *three):
        return f'the greatest scale, {found.greatest}, does not hold'
    return None


def least_speed(low_low, high_low, high_high):
    """The least whole number of millionths that is at least the greater root s of s*s - s*(U_LL + U_HH) + U_LL*(U_HH - U_HL)."""
    both, apart = low_low + high_high, low_low * (high_high - high_low)
    square = both * both - 4 * apart
    over = lcm(both.denominator, square.denominator)
    whole, under = int(both * over), int(square * over * over)
    # The root is (whole + the square root of under) / (2 * over).
    steps = STEPS * (whole + isqrt(under)) // (2 * over)
    while 2 * over * steps < STEPS * whole or (2 * over * steps - STEPS * whole) ** 2 < STEPS * STEPS * under:
        steps += 1
    return steps


def wrong_speed(found, three):
    """What is wrong with the least speed that the library found, or None."""
    steps = found * STEPS
    if steps.denominator != 1 or steps < 1:
        return f'{found} is no number of millionths'
    if steps != least_speed(*three):
        return f'{steps} millionths, but the root is at {least_speed(*three)}'
    if not is_admitted(*(load / found for load in three)):
        return f'refused at {steps} millionths'
    if steps > 1 and is_admitted(*(load * STEPS / (steps - 1) for load in three)):
        return f'admitted at less than {steps} millionths'
    if three[0] + three[1] <= 1 and three[2] <= 1 and 3 * STEPS * found > 4 * STEPS + 3:
        return f'{found} is above 4/3'
    return None


def small_set(chance):
    """A set of few tasks with short periods, whose load is around 1."""
    tasks = []
    for _ in range(chance.randint(1, 5)):
        period = chance.randint(1, 24)
        low = chance.randint(1, max(1, period // chance.randint(1, 4)))
        level = chance.choice(('low', 'high'))
        tasks.append((level, period, low, low if level == 'low' else chance.randint(low, max(low, period // chance.randint(1, 3)))))
    return tasks


def full_set(chance):
    """A set whose low tasks ask for all time, or nearly so, or whose load in a mode is 1."""
    period = chance.randint(2, 30)
    low = chance.randint(1, period)
    own = chance.randint(1, period)
    tasks = [('low', period, low, low)]
    if low < period or chance.random() < 0.5:
        least = chance.randint(1, max(1, min(own, period - low)))
        tasks.append(('high', period, least, max(least, own)))
    return tasks


def many_tasks(chance):
    """A set of 128 tasks whose periods divide 2^6 * 3^2 * 5^2."""
    periods = [period for period in range(100, 14401) if 14400 % period == 0]
    tasks = []
    for place in range(128):
        period = chance.choice(periods)
        low = chance.randint(1, max(1, period // 150))
        high = chance.randint(low, max(low, period // 70))
        tasks.append(('low', period, low, low) if place % 2 else ('high', period, low, high))
    return tasks


def large_set(chance):
    """A set with periods of up to 32 bits and a hyperperiod of at most 2^60."""
    tasks, common = [], 1
    while len(tasks) < chance.randint(1, 4):
        period = chance.choice((MOST, 2**31, 3**20, 2**chance.randint(0, 31), chance.randint(1, MOST), chance.randint(1, 2**28)))
        if lcm(common, period) > 2**60:
            if tasks:
                break
            continue
        common = lcm(common, period)
        low = chance.choice((1, MOST, chance.randint(1, max(1, period // 2)), chance.randint(1, max(1, period // 3))))
        high = chance.choice((low, chance.randint(low, max(low, period)), MOST))
        tasks.append(('low', period, low, low) if chance.random() < 0.5 else ('high', period, low, high))
    return tasks


def faults(tasks, chance):
    """What is wrong with what the library says of the set."""
    from edfvd import Task, scales, sensitivity, speed

    given = [Task(str(place), level, period, low, high) for place, (level, period, low, high) in enumerate(tasks)]
    three, found = loads(tasks), []
    for place, greatest in enumerate(sensitivity(given)):
        found.append(wrong_budget(tasks, place, 'low', greatest.low, chance))
        if tasks[place][0] == 'high':
            found.append(wrong_budget(tasks, place, 'high', greatest.high, chance))
        elif greatest.high is not None:
            found.append('a low task has a high budget')
    found.append(wrong_scales(scales(given), three, chance))
    found.append(wrong_speed(speed(given), three))
    if (scales(given) is not None) != is_admitted(*three):
        found.append('there is a scale exactly if the set is not admitted')
    return [fault for fault in found if fault is not None]


def main(words):
    if len(words) != 2:
        raise WrongWords
    sets, seed = numbers(words, 0, 0)
    try:
        import edfvd  # noqa: F401
    except ImportError as error:
        print(f'sensitivity.py: {error}', file=sys.stderr)
        return 1
    chance, kinds, admitted = random.Random(seed), (small_set, full_set, large_set), 0
    for number in range(sets):
        tasks = many_tasks(chance) if number % 100 == 99 else kinds[number % 3](chance)
        admitted += is_admitted(*loads(tasks))
        for fault in faults(tasks, chance):
            print(f'sensitivity: set {number} of seed {seed}: {fault}: {tasks}')
            return 1
    print(f'{sets} sets, {admitted} of them admitted: all agree')
    return 0


if __name__ == '__main__':
    ends(main, __doc__)
