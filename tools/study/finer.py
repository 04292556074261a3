"""Counts sets by their stretch at each whole percentage, where `edfvd accept` does at every tenth one.

The sets are those of `edfvd accept NUMBER SETS TASKCOUNT`, made by workloads.py, and the stretch of each is what `edfvd stretch` says of
it. The lines are `S COUNT`, for S from 100 on, up to the first S that no set has or to 1000: COUNT sets have a stretch of at
least S. They have the form of accept's lines. If S is one of accept's numbers, its count must be that of accept: otherwise there is
no table, and the status is 1.

usage: finer.py NUMBER SETS TASKCOUNT
       as of `edfvd accept`; the program is the one that the environment variable EDFVD names, by default `edfvd`
"""

import os
import pathlib
import re
import subprocess
import sys
from concurrent.futures import ThreadPoolExecutor

sys.path.insert(0, str(pathlib.Path(__file__).resolve().parent.parent))
from reading import Refusal, excerpt, number_between, or_refused
from rules import task_table
from usage import WrongWords, ends
from workloads import soak_tasks

LEAST, MOST = 100, 1000  # percentages of the high budgets


def answer_of(words, text=''):
    """What the program writes for these words, where its task file is the text."""
    program = os.environ.get('EDFVD', 'edfvd')
    ended = subprocess.run([program] + words, input=text, capture_output=True, text=True)
    if ended.returncode != 0:
        raise Refusal(1, f'finer.py: {program} {" ".join(words)}: status {ended.returncode} {excerpt(ended.stdout.strip())}')
    return ended.stdout


def stretch_of(tasks):
    """The stretch of a set in per cent, or -1 where it has none."""
    text = answer_of(['stretch', '/dev/stdin'], '\n'.join(map(task_table, tasks)))
    match = re.match('stretch (none|[0-9]{1,4})\n', text)
    if match is None:
        raise Refusal(1, f'finer.py: stretch says no stretch: {excerpt(text)}')
    return -1 if match[1] == 'none' else int(match[1])


def counts_of(stretches):
    """For each percentage from LEAST on how many of the stretches are at least that, up to the first that none is."""
    counts = {}
    for percent in range(LEAST, MOST + 1):
        counts[percent] = sum(stretch >= percent for stretch in stretches)
        if counts[percent] == 0:
            break
    return counts


def refuse_others(counts, table):
    """Refuses counts that are not those of accept's table, where they have the same percentage."""
    for percent, count in re.findall(r'(\d+) (\d+)\n', table):
        found = counts.get(int(percent), 0)
        if found != int(count):
            raise Refusal(1, f'finer.py: {found} sets at {percent}, accept counts {count}')


def main(words):
    if len(words) != 3:
        raise WrongWords
    count, tasks = number_between(words[1], 1, 10000), number_between(words[2], 2, 32)
    number = number_between(words[0], 0, 2 ** 64 - 1 - count)
    sets = [soak_tasks(made, tasks) for made in range(number, number + count)]
    with ThreadPoolExecutor(os.cpu_count()) as pool:
        counts = counts_of(list(pool.map(stretch_of, sets)))
    refuse_others(counts, answer_of(['accept'] + words))
    for percent, reached in counts.items():
        print(f'{percent} {reached}')
    return 0


if __name__ == '__main__':
    ends(or_refused(main), __doc__)
