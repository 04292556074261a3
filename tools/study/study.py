"""A study of more sets than one call of `edfvd accept` takes: cut into parts, resumed, and added up.

A study is a folder. `new` writes down which sets are in it, and how many sets each part has. `left` prints the numbers of the
parts, from 0, that are not worked out yet. `part` works out some parts, by calls of at most 10,000 sets each. `share` works out
the parts of one of several jobs: of those that are left, each JOBS-th from JOB on. `sum` adds up all parts and writes the table
that one call for all sets would write, and `table` keeps it as FOLDER/table.txt. If a set is in no part or in two, both say which
set this is, and there is no table.

A part's file has the part's call in its first line. It gets its name in one step when it is whole, so that a job that is killed
leaves no file. A part that was worked out twice has one file. Files from other machines are copied to `parts`. A study has at most
1,000,000 parts, of at most 1,000,000 sets each.

usage: study.py new FOLDER NUMBER SETS TASKCOUNT SIZE
       study.py left FOLDER
       study.py part FOLDER PART..
       study.py share FOLDER JOB JOBS
       study.py sum FOLDER
       study.py table FOLDER
       study.py program
       the program is the one that the environment variable EDFVD names, by default `edfvd`; `program` writes its name
"""

import os
import pathlib
import re
import shutil
import subprocess
import sys
import tempfile
from typing import NamedTuple

sys.path.insert(0, str(pathlib.Path(__file__).resolve().parent.parent))
from reading import bytes_in, excerpt
from usage import WrongWords, ends, shown_name

MOST_SETS = 10000  # of a call of the program
MOST_PARTS = MOST_IN_PART = 1_000_000  # parts are counted and listed one by one
MOST_BYTES = 65536  # of a file in a study's folder, which has some twenty short lines at most
PERCENTS = range(100, 201, 10)
TASKS = range(2, 33)
NUMBERS = 2 ** 64


# Why there is no answer.
class Fault(Exception):
    pass


# `count` sets of `tasks` tasks each, generated from consecutive numbers, of which `number` is the first.
class Sets(NamedTuple):
    number: int
    count: int
    tasks: int

    def call(self):
        return f'accept {self.number} {self.count} {self.tasks}'

    def end(self):
        return self.number + self.count

    # How many parts of this size they make.
    def parts(self, size):
        return -(-self.count // size)

    # These sets in pieces of at most `size`.
    def pieces(self, size):
        return [Sets(number, min(size, self.end() - number), self.tasks) for number in range(self.number, self.end(), size)]


# The number that a word is, which must be one of these.
def number_of(word, numbers):
    if not re.fullmatch('[0-9]{1,20}', word) or int(word) not in numbers:
        raise Fault(f'{excerpt(word)} is not from {numbers[0]} to {numbers[-1]}')
    return int(word)


# The sets of a call that is written down.
def sets_of(line):
    match = re.fullmatch('accept ([0-9]{1,20}) ([0-9]{1,20}) ([0-9]{1,2})', line)
    sets = Sets(*map(int, match.groups())) if match else None
    return sets if sets and sets.count > 0 and sets.end() < NUMBERS and sets.tasks in TASKS else None


# The eleven counts of a table of some sets, or None where the text is none: each has its percentage, and none rises.
def counts_of(text, sets):
    lines = [line.split(' ') for line in text.split('\n')]
    if lines.pop() != [''] or [line[0] for line in lines] != [str(percent) for percent in PERCENTS]:
        return None
    if any(len(line) != 2 or not re.fullmatch('0|[1-9][0-9]{0,19}', line[1]) for line in lines):
        return None
    counts = [int(line[1]) for line in lines]
    return counts if sorted([sets.count] + counts, reverse=True) == [sets.count] + counts else None


def table_of(counts):
    return ''.join(f'{percent} {count}\n' for percent, count in zip(PERCENTS, counts))


# ---- The folder ----

# The text of a file of a study, where what is no UTF-8 is replaced.
def text_in(place):
    return bytes_in(place, MOST_BYTES).decode(errors='replace')


# The sets of a study and how many a part has.
def read(folder):
    try:
        first, second = text_in(folder / 'study.txt').split('\n')[:2]
    except (OSError, ValueError):
        raise Fault(f'{shown_name(folder)} has no study') from None
    sets, size = sets_of(first), re.fullmatch('in parts of ([1-9][0-9]{0,6})', second)
    if sets is None or size is None or int(size[1]) > MOST_IN_PART or sets.parts(int(size[1])) > MOST_PARTS:
        raise Fault(f'{shown_name(folder)}/study.txt has no study')
    return sets, int(size[1])


def new(folder, *words):
    number, count, tasks = (
        number_of(word, numbers) for word, numbers in zip(words, [range(NUMBERS), range(1, NUMBERS), TASKS]))
    size = number_of(words[3], range(1, MOST_IN_PART + 1))
    if number + count >= NUMBERS:
        raise Fault(f'{number} and {count} are 2^64 or more together')
    parts = Sets(number, count, tasks).parts(size)
    if parts > MOST_PARTS:
        raise Fault(f'{parts} parts, a study has at most {MOST_PARTS}: take fewer sets, or more in a part')
    text = f'{Sets(number, count, tasks).call()}\nin parts of {size}\n'
    place = folder / 'study.txt'
    if place.exists() and text_in(place) != text:
        raise Fault(f'{shown_name(folder)} has another study')
    (folder / 'parts').mkdir(parents=True, exist_ok=True)
    put(place, text)


# A file that is whole as soon as it is there.
def put(place, text):
    file = tempfile.NamedTemporaryFile('w', dir=place.parent, prefix='.', delete=False)
    try:
        with file:
            file.write(text)
            file.flush()
            os.fsync(file.fileno())
        os.chmod(file.name, 0o644)
        os.replace(file.name, place)
    except OSError:
        os.unlink(file.name)
        raise


def place_of(folder, part):
    return folder / 'parts' / f'{part}.txt'


# The sets of a part's file and their counts.
def read_part(place):
    call, _, table = text_in(place).partition('\n')
    sets = sets_of(call)
    counts = sets and counts_of(table, sets)
    if not counts:
        raise Fault(f'{shown_name(place)} is no part')
    return sets, counts


# The numbers of the parts that have no file yet.
def left(folder):
    sets, size = read(folder)
    there = set(os.listdir(folder / 'parts'))
    return [part for part in range(sets.parts(size)) if place_of(folder, part).name not in there]


# ---- Working a part out ----

# The name of the program, which must be there.
def program_name():
    name = os.environ.get('EDFVD') or 'edfvd'
    if shutil.which(name) is None:
        raise Fault(f'there is no program {name}: `install.sh PREFIX` puts edfvd to PREFIX/bin, which has to be on the PATH, '
                    'or the environment variable EDFVD names another place')
    return name


# The counts of at most MOST_SETS sets, by the program.
def accept(program, sets):
    ended = subprocess.run([program] + sets.call().split(), stdin=subprocess.DEVNULL, capture_output=True, text=True)
    counts = counts_of(ended.stdout, sets) if ended.returncode == 0 else None
    if counts is None:
        raise Fault(f'{program} {sets.call()}: status {ended.returncode} {ended.stderr.strip()}')
    return counts


def work_out(folder, parts):
    program = program_name()
    sets, size = read(folder)
    for part in parts:
        own = Sets(sets.number + part * size, min(size, sets.count - part * size), sets.tasks)
        counts = [sum(column) for column in zip(*(accept(program, piece) for piece in own.pieces(MOST_SETS)))]
        put(place_of(folder, part), f'{own.call()}\n{table_of(counts)}')


# ---- Adding up ----

# What is wrong with a list of sets in the place of others, which it should be cut from.
def faults(whole, cuts):
    due = whole.number
    for sets in sorted(cuts):
        if sets.tasks != whole.tasks:
            yield f'{sets.call()} is of another number of tasks'
        if sets.number > due:
            yield f'no part has the numbers {due} to {sets.number - 1}'
        if sets.number < due:
            yield f'{sets.call()} begins before ' + (f'{due}, where the part before it ends' if due > whole.number else 'the study')
        due = max(due, sets.end())
    if due < whole.end():
        yield f'no part has the numbers {due} to {whole.end() - 1}'
    if due > whole.end():
        yield f'the parts have numbers up to {due - 1}, the study up to {whole.end() - 1}'


def add_up(folder):
    whole, _ = read(folder)
    places = sorted(place for place in (folder / 'parts').iterdir() if not place.name.startswith('.'))
    parts = [read_part(place) for place in places]
    found = list(faults(whole, [sets for sets, _ in parts]))
    if found:
        raise Fault('\nstudy: '.join(found))
    return table_of([sum(column) for column in zip(*(counts for _, counts in parts))])


# What is written, by the words of the call.
def answer(words):
    if words == ['program']:
        return f'{program_name()}\n'
    if len(words) < 2:
        raise WrongWords
    command, folder, words = words[0], pathlib.Path(words[1]), words[2:]
    if command == 'new' and len(words) == 4:
        new(folder, *words)
    elif command == 'left' and not words:
        return ''.join(f'{part}\n' for part in left(folder))
    elif command == 'part' and words:
        sets, size = read(folder)
        work_out(folder, [number_of(word, range(sets.parts(size))) for word in words])
    elif command == 'share' and len(words) == 2:
        jobs = number_of(words[1], range(1, NUMBERS))
        job = number_of(words[0], range(jobs))
        work_out(folder, [part for part in left(folder) if part % jobs == job])
    elif command == 'sum' and not words:
        return add_up(folder)
    elif command == 'table' and not words:
        put(folder / 'table.txt', add_up(folder))
    else:
        raise WrongWords
    return ''


def main(words):
    try:
        text = answer(words)
    except (Fault, OSError) as fault:
        print(f'study: {fault}', file=sys.stderr)
        return 1
    sys.stdout.write(text)
    return 0


if __name__ == '__main__':
    ends(main, __doc__)
