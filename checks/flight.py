"""Makes the task file and the work file of twelve tasks of a flight computer, with ten thousand jobs, and says what comes of them.

Ticks are 100 microseconds. Each task releases as often as it may, or up to two ticks later; a job needs from half of its
low budget up to all of it, and one in 128 high jobs needs its high budget. The numbers are those of the
generator in workloads.py, so a seed makes the same files everywhere. What comes is worked out by walk.py, which calls no built program.

usage: flight.py FOLDER [SEED]
"""

import collections
import hashlib
import pathlib
from itertools import islice

import with_tools
import rules
import walk
from rules import HIGH, LOW, Task, Work
from usage import WrongWords, ends, numbers
from workloads import pcg_words

TASKS = [
    Task('attitude', HIGH, 50, 4, 8), Task('gyros', HIGH, 100, 5, 10), Task('engine_left', HIGH, 200, 10, 20),
    Task('engine_right', HIGH, 200, 10, 20), Task('navigation', HIGH, 400, 25, 44), Task('gear', HIGH, 1000, 20, 50),
    Task('display', LOW, 160, 16, 16), Task('radio', LOW, 250, 20, 20), Task('flight_plan', LOW, 500, 35, 35),
    Task('maintenance', LOW, 2000, 120, 120), Task('cabin', LOW, 800, 40, 40), Task('weather', LOW, 4000, 200, 200)]
JOBS, TICKS, STREAM = 10000, 180000, 1


# The text of the task file.
def task_text():
    return '\n'.join(map(rules.task_table, TASKS))


# What a job needs.
def need(task, words):
    if task.level == HIGH and next(words) % 128 == 0:
        return task.high
    least = (task.low + 1) // 2
    return least + next(words) % (task.low - least + 1)


# The jobs of a task, the first within its period.
def jobs_of(number, task, words):
    release = next(words) % task.period
    while True:
        yield Work(number, release, need(task, words))
        release += task.period + next(words) % 3


# The first ten thousand jobs in the order of their releases, and then of the tasks.
def work(seed):
    made = []
    for number, task in enumerate(TASKS, 1):
        jobs = jobs_of(number, task, pcg_words(seed * len(TASKS) + number, STREAM))
        made.extend(islice(jobs, 2 * TICKS // task.period))
    return sorted(made, key=lambda job: (job.release, job.task))[:JOBS]


def work_text(jobs):
    return 'task,release,need\n' + lines_text(f'{TASKS[job.task - 1].name},{job.release},{job.need}' for job in jobs)


# Lines as a text, each with its line feed.
def lines_text(lines):
    return ''.join(f'{line}\n' for line in lines)


def digest(text):
    return hashlib.sha256(text.encode()).hexdigest()


def main(words):
    if not words:
        raise WrongWords
    jobs = work(*numbers(words[1:], 12))
    rule = rules.published_rule(TASKS)
    texts = {'tasks.toml': task_text(), 'work.csv': work_text(jobs)}
    for name, text in texts.items():
        (pathlib.Path(words[0]) / name).write_text(text, encoding='utf-8')
    through = walk.Walk(TASKS, rule)
    runs = walk.follow(through, jobs, TICKS)
    texts[f'the text of run with {TICKS} ticks'] = lines_text(rules.trace_lines(TASKS, runs))
    for name, text in texts.items():
        print(f'{digest(text)} {name}')
    print(f'{len(jobs)} jobs, the last released at {jobs[-1].release}')
    ends = collections.Counter(left.why for left in through.left.values())
    print(', '.join(f'{word} {ends[word]}' for word in ('done', 'stopped', 'dropped', 'discarded')))
    print(f'overruns {sum(run.kind == rules.OVER for run in runs)}, late {len(through.late())}')
    return 0


if __name__ == '__main__':
    ends(main, __doc__)
