"""What mutate.py and compare.py have in common: numbers by a seed, and runs of the program on the files of a case."""

import atexit
import os
import random
import shutil
import subprocess
import tempfile

import with_tools
from usage import WrongWords, numbers


class Dice:
    """Numbers by a seed, the same in each version of Python."""

    def __init__(self, seed):
        self.random = random.Random(seed)

    def below(self, count):
        return int(self.random.random() * count)

    def one_of(self, items):
        return items[self.below(len(items))]


def program_count_seed(words, count):
    """What the words say: the program, the number of cases, by default this count, and the seed."""
    if not words:
        raise WrongWords
    return os.path.abspath(words[0]), *numbers(words[1:], count, 1)


class Runner:
    """Runs the program on files in a folder of its own, and counts."""

    def __init__(self, program, limit=None, seconds=60):
        self.program = program
        self.limit = limit
        self.seconds = seconds
        self.folder = tempfile.mkdtemp()
        atexit.register(shutil.rmtree, self.folder, ignore_errors=True)
        self.runs = 0

    def run(self, command, contents, words):
        """As `call`, on files of these contents."""
        return self.call(command, written(self.folder, contents), words)

    def call(self, command, names, words):
        """The status, the text, and what stands on standard error; status 124 where a run takes longer than it may."""
        self.runs += 1
        try:
            ended = subprocess.run(
                [self.program, command] + names + words, stdin=subprocess.DEVNULL, capture_output=True,
                preexec_fn=self.limit, timeout=self.seconds)
        except subprocess.TimeoutExpired:
            return 124, b'', b''
        return ended.returncode, ended.stdout, ended.stderr


def written(folder, contents):
    """The names of the files of a case, which are written there."""
    names = [os.path.join(folder, f'file{number}') for number in range(1, len(contents) + 1)]
    for name, content in zip(names, contents):
        with open(name, 'wb') as file:
            file.write(content)
    return names


def keep(number, command, contents, words):
    """Keeps the files of a case, and answers the words of its call."""
    folder = tempfile.mkdtemp(prefix=f'edfvd-case-{number}-')
    return ' '.join([command] + written(folder, contents) + words)


def tell(times_of_statuses):
    """A line for each command: how many times each status came."""
    for form, times in times_of_statuses.items():
        told = ', '.join(f'{count} of status {status}' for status, count in sorted(times.items()))
        print(f'{form}: {told}')
