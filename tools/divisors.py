"""Rounds the periods of a task file down to divisors of one number, so that their least common multiple is within 2^60.

Without NUMBER the divisors are those of 897,612,484,786,617,600, which has 103,680 of them: a period of 10,000 ticks or more loses
at most 0.52 % of itself, and one of at most 40 ticks nothing. With a smaller NUMBER the hyperperiod is shorter, and periods lose more.
A shorter period loads the set more, so what `edfvd check` admits then would be admitted with the true periods.

The new task file goes to standard output, without the comments of the old one; what each period lost goes to standard error.

usage: divisors.py TASKS [NUMBER] > NEW.toml
       TASKS is a task file, NUMBER a number of ticks from 1 to 2^60 without a prime factor above 1,000
"""

import bisect
import sys

from reading import Refusal, number_between, or_refused, set_in
from rules import task_table
from usage import WrongWords, ends

DENSE = 897_612_484_786_617_600
MOST = 2 ** 60


def prime_powers(number):
    """Pairs of a prime factor and how often it divides the number; none of the factors may be above 1,000."""
    for prime in range(2, 1000):
        times = 0
        while number % prime == 0:
            number, times = number // prime, times + 1
        if times:
            yield prime, times
    if number > 1:
        raise Refusal(1, 'divisors.py: the number has a prime factor above 1000: take a product of small primes')


def divisors(number):
    """All divisors of the number, in ascending order."""
    found = [1]
    for prime, times in prime_powers(number):
        found = [divisor * prime ** power for divisor in found for power in range(times + 1)]
    return sorted(found)


def rounded_down(period, steps):
    """The greatest of the steps, which ascend from 1, that is at most the period; both in ticks."""
    return steps[bisect.bisect_right(steps, period) - 1]


def loss_line(task, period):
    """What a task's period lost, in ticks and in per cent of itself."""
    lost = task.period - period
    return f'{task.name}: period {task.period} is now {period}, {100 * lost / task.period:.2f} % less'


def head_text(scale):
    """The keys above the tasks, of a set with this scale or with none."""
    return f'version = 2\nscale = [{scale.p}, {scale.q}]\n\n' if scale else ''


def main(words):
    if len(words) not in (1, 2):
        raise WrongWords
    steps = divisors(number_between(words[1], 1, MOST) if words[1:] else DENSE)
    old = set_in(words[0])
    tasks = [task._replace(period=rounded_down(task.period, steps)) for task in old.tasks]
    for task, new in zip(old.tasks, tasks):
        print(loss_line(task, new.period), file=sys.stderr)
    print(head_text(old.scale) + '\n'.join(map(task_table, tasks)), end='')
    return 0


if __name__ == '__main__':
    ends(or_refused(main), __doc__)
