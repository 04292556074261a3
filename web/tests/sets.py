"""Writes random sets of numbers with what the shared library stores for each, as JSON on standard output: the statuses and the bytes of
edfvd_sensitivity, edfvd_scales and edfvd_speed.

usage: sets.py LIBRARY.so COUNT SEED
"""

import ctypes
import json
import os
import random
import sys
from pathlib import Path

sys.path.insert(0, str(Path(__file__).resolve().parent.parent.parent / 'tools'))
from usage import WrongWords, ends, whole_number  # noqa: E402

MOST = 4294967295
PERIODS = [[2, 4, 8], [5, 10, 20, 25], [7, 12, 84], [1000, 1500, 99991], [1, 2, 3], [MOST, MOST - 1, MOST - 4, 65536]]


def some_task(chance, periods, part):
    """Level, period and budgets. The loads of a set are about 1 in all."""
    period = chance.choice(periods)
    low = min(MOST, max(1, int(period * part * chance.choice([0.2, 0.5, 1, 1, 1.5]) * chance.random() * 2)))
    level = chance.choice([0, 1])
    return [level, period, low, min(MOST, low + chance.randint(0, max(1, int(period * part)))) if level else low]


def some_set(chance):
    """A set, of which one in eight has a fault."""
    count = chance.choice([1, 1, 2, 2, 3, 4, 6, 10, 30, 128])
    tasks = [some_task(chance, chance.choice(PERIODS) if chance.random() < 0.1 else PERIODS[count % len(PERIODS)], 1 / count) for _ in range(count)]
    if chance.random() < 0.125:
        chance.choice(tasks)[chance.choice([1, 2, 3])] = chance.choice([0, 1, 7, MOST])
    return [[level, period, low, high if level else low] for level, period, low, high in tasks]


def task_bytes(tasks):
    return b''.join(number.to_bytes(4, 'little') for task in tasks for number in task)


def stored(call, tasks, length):
    """What a call stores: its status, and these bytes, which are zeros before."""
    out, refused = ctypes.create_string_buffer(max(length, 1)), ctypes.c_uint32(0)
    status = call(task_bytes(tasks), ctypes.c_size_t(len(tasks)), out, ctypes.byref(refused))
    return [status, out.raw[:length].hex() if status == 0 else '']


def main(words):
    if len(words) != 3:
        raise WrongWords
    library, (count, seed) = ctypes.CDLL(os.path.abspath(words[0])), map(whole_number, words[1:])
    chance, cases = random.Random(seed), []
    for tasks in [[], [[0, 5, 5, 5]] * 129, *(some_set(chance) for _ in range(count))]:
        cases.append([tasks, stored(library.edfvd_sensitivity, tasks, 8 * len(tasks)), stored(library.edfvd_scales, tasks, 32),
                      stored(library.edfvd_speed, tasks, 8)])
    json.dump(cases, sys.stdout)
    return 0


if __name__ == '__main__':
    ends(main, __doc__)
