"""Writes a work file for a task file: each task releases a job at 0 and then as often as its period lets it, below TICKS.

A job needs from 1 tick to its low budget, drawn by the seed; the same words write the same bytes on every machine. Of each high
task the jobs number EVERY, 2 * EVERY and so on need the high budget, so that they overrun under EDF-VD.

usage: jobs.py TASKS TICKS [--seed SEED] [--overruns EVERY] > WORK.csv
       TASKS is a task file, TICKS from 1 to 1,000,000, SEED below 2^64 (default 1), EVERY 0 for no overruns (default 16)
"""

from reading import Refusal, number_between, or_refused, tasks_in
from rules import HIGH, MOST, MOST_JOBS, Work
from usage import WrongWords, ends
from workloads import pcg_words

MOST_TICKS, MOST_BYTES = 1_000_000, 16_777_216
DEFAULTS = {'--seed': '1', '--overruns': '16'}


def need(task, count, every, words):
    """How many ticks the job number `count` of a task needs; `words` are random 32-bit words, of which it takes one."""
    word = next(words)
    overruns = task.level == HIGH and every > 0 and count % every == 0
    return task.high if overruns else 1 + word % task.low


def jobs_of(number, task, ticks, seed, every):
    """The jobs of the task with this number, in the order of their releases, below `ticks`."""
    words = pcg_words(seed, number)
    return [Work(number, release, need(task, count, every, words))
            for count, release in enumerate(range(0, ticks, task.period), 1)]


def refuse_many(count, most, what):
    """Refuses more of something than a work file may have."""
    if count > most:
        raise Refusal(1, f'jobs.py: {count} {what}, a work file has at most {most}: take fewer ticks')


def work_lines(tasks, ticks, seed, every):
    """The lines of a work file with all jobs of the tasks that are released below `ticks`."""
    refuse_many(sum(len(range(0, ticks, task.period)) for task in tasks), MOST_JOBS, 'jobs')
    jobs = [job for number, task in enumerate(tasks, 1) for job in jobs_of(number, task, ticks, seed, every)]
    in_order = sorted(jobs, key=lambda job: (job.release, job.task))
    lines = ['task,release,need'] + [f'{tasks[job.task - 1].name},{job.release},{job.need}' for job in in_order]
    refuse_many(sum(len(line) + 1 for line in lines), MOST_BYTES, 'bytes')
    return lines


def split_options(words):
    """The words without options, and the word of each option: the one after it, or its default."""
    rest, chosen, words = [], dict(DEFAULTS), iter(words)
    for word in words:
        if word not in DEFAULTS:
            rest.append(word)
            continue
        chosen[word] = next(words, '')
    return rest, chosen


def main(words):
    words, options = split_options(words)
    if len(words) != 2:
        raise WrongWords
    ticks = number_between(words[1], 1, MOST_TICKS)
    seed = number_between(options['--seed'], 0, 2 ** 64 - 1)
    every = number_between(options['--overruns'], 0, MOST)
    for line in work_lines(tasks_in(words[0]), ticks, seed, every):
        print(line)
    return 0


if __name__ == '__main__':
    ends(or_refused(main), __doc__)
