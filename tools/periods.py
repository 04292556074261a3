"""Counts how many sets with log-uniform periods have a least common multiple past 2^60, and how many with periods drawn
from the divisors of one number.

usage: periods.py [SETS [SEED]]
"""

import math
import random

from usage import ends, numbers

MOST = 2 ** 60


def log_uniform(dice, least, most):
    return int(math.exp(dice.uniform(math.log(least), math.log(most))))


# How many of `sets` sets are out of range. Each set has `count` periods, each from a call of `period`.
def past(sets, count, period):
    return sum(math.lcm(*[period() for _ in range(count)]) > MOST for _ in range(sets))


def main(words):
    sets, seed = numbers(words, 200, 1)
    for least, most, count in [(10, 1000, 5), (10, 1000, 10), (10, 1000, 20), (10, 1000, 50), (1000, 1000000, 5)]:
        dice = random.Random(seed)
        out = past(sets, count, lambda: log_uniform(dice, least, most))
        print(f'{count} periods log-uniform from {least} to {most}: {out} of {sets} sets out of range')
    for whole in (10000, 720720):
        dice = random.Random(seed)
        divisors = [number for number in range(10, whole + 1) if whole % number == 0]
        print(f'50 periods from the divisors of {whole}: {past(sets, 50, lambda: dice.choice(divisors))} of {sets}')
    return 0


if __name__ == '__main__':
    ends(main, __doc__)
