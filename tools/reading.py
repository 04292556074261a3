"""Reads the files of the tools, in bounded memory, with what each refusal says.

A file is regular, or one that is open already: /dev/stdin or /dev/fd/N. Other names, as that of a pipe nobody writes to, might
never end. A task file has at most 1 MiB, which is far more than 128 tasks need, since tomllib takes some 300 bytes of memory for a
byte. A trace has at most as much as `judge` takes; a record of it that is too long is refused with a message of its own, since to find
the one of `judge` the whole record would have to be kept.
What `judge` says of a file is said here too, with its status: 3 of a task file, 5 of a trace. A file that cannot be read, is no
regular one or is too long is an OSError, which usage.py ends with status 7.
"""

import contextlib
import csv
import errno
import io
import math
import os
import re
import stat
import sys
from typing import NamedTuple

try:
    import tomllib
except ImportError:  # before Python 3.11, where study.py runs too
    tomllib = None

from rules import (
    EVENTS, HEADERS, HIGH, IDLE, LOW, MORE, MOST, MOST_ROWS, MOST_TASKS, MOST_TICKS, ROWS_HEADER, Job, Run, Scale, Task, TaskSet)
from usage import WrongWords, whole_number

MOST_TASK_BYTES, MOST_TRACE_BYTES = 2 ** 20, 2 ** 27
MOST_IN_RECORD = 131_072  # characters, with its commas, quotes and line ends


class Refusal(Exception):
    """What is written in place of an answer: a line, and its status."""

    def __init__(self, status, line):
        super().__init__(line)
        self.status = status
        self.line = line


def number_between(word, least, most):
    """The whole number that a word is, from `least` to `most`."""
    number = whole_number(word)
    if not least <= number <= most:
        raise WrongWords
    return number


def or_refused(main):
    """The function main, which answers `Refusal` with its line on standard error and with its status."""
    def reads(words):
        try:
            return main(words)
        except Refusal as refusal:
            print(refusal.line, file=sys.stderr)
            return refusal.status
    return reads


# ---- Files ----

class BoundedFile(io.FileIO):
    """A file that is opened without waiting, and of which at most `most` bytes can be read."""

    def __init__(self, name, most):
        super().__init__(os.fspath(name), opener=open_at_once)
        self.most = self.left = most

    def readinto(self, buffer):
        try:
            count = super().readinto(buffer)
        except OSError as error:  # which has no name of the file
            raise OSError(error.errno, error.strerror, self.name) from None
        self.left -= count
        if self.left < 0:
            raise OSError(errno.EFBIG, f'longer than {self.most} bytes', self.name)
        return count


def open_at_once(name, flags):
    """The descriptor of a file, which must be a regular one or open already."""
    descriptor = os.open(name, flags | os.O_NONBLOCK)
    is_regular = stat.S_ISREG(os.fstat(descriptor).st_mode)
    if not is_regular and not re.fullmatch('/dev/(stdin|fd/[0-9]+)', name):
        os.close(descriptor)
        raise OSError(errno.EINVAL, 'not a regular file', name)
    os.set_blocking(descriptor, True)
    return descriptor


def bytes_in(name, most):
    """The bytes of a file, which may have `most` bytes and no more."""
    with io.BufferedReader(BoundedFile(name, most)) as file:
        return file.read(most + 1)


@contextlib.contextmanager
def text_file(name, most):
    """The text of a file, to be read by lines; what is no UTF-8 is replaced, and a byte order mark is passed over."""
    with io.BufferedReader(BoundedFile(name, most)) as file:
        yield io.TextIOWrapper(file, encoding='utf-8-sig', errors='replace', newline='')


class RecordTooLong(Exception):
    """A record of a file has more characters than any that is right."""


def records_in(lines):
    """The records of lines in CSV, each with the number of the line that it ends in; empty lines are passed over."""
    length = 0

    def counted():
        nonlocal length
        for line in lines:
            length += len(line)
            if length > MOST_IN_RECORD:
                raise RecordTooLong
            yield line
    reader = csv.reader(counted())
    for record in reader:
        length = 0
        if record:
            yield reader.line_num, record


def lines_of(file):
    """The lines of a text file, where a line that is too long for a record is cut."""
    return iter(lambda: file.readline(MOST_IN_RECORD + 1), '')


# ---- Numbers and names ----

def number_of(text):
    """The number of a text of at most ten digits, or None if it is none or more than a number may be."""
    if not (len(text) <= 10 and text.isascii() and text.isdigit()):
        return None
    number = int(text)
    return number if number <= MOST else None


def is_whole(value):
    return isinstance(value, int) and not isinstance(value, bool)


def shown(key):
    """A key as a message shows it: its first 32 bytes, with `?` for each that is no visible ASCII character."""
    return ''.join(chr(byte) if 0x21 <= byte <= 0x7e else '?' for byte in key.encode()[:32])


def excerpt(text):
    """The beginning of a text as a message shows it, with `?` for each character that does not stand in a line."""
    return ''.join(one if one.isprintable() else '?' for one in text[:64])


# ---- Task files ----

TASK_KEYS = ['name', 'level', 'period', 'low', 'high']
MOST_DEPTH = 80  # of a TOML document: the parts of a key, and the brackets around a value
if tomllib is not None:
    # Strings and comments, also without their ends. Then no bracket and no dot is left that is not one of the document.
    IN_WORDS = re.compile(
        r'"""(?:[^"\\]++|\\.|"(?!""))*+(?:"{3,5}|\Z)|\'\'\'(?:[^\']++|\'(?!\'\'))*+(?:\'{3,5}|\Z)'
        r'|"(?:[^"\\\n]++|\\.)*+"?|\'[^\'\n]*+\'?|#[^\n]*+', re.DOTALL)
    LONG_KEY = re.compile(r'(?<![\w-])(?:[\w-]++[ \t]*+\.[ \t]*+){%d}' % MOST_DEPTH)


def is_too_deep(text):
    """Whether a key of a document has too many parts, for which tomllib takes time by their square, or a value is nested too
    deeply, for which it has no room."""
    bare = IN_WORDS.sub('s', text)
    depth = deepest = 0
    for bracket in re.findall(r'[][{}]', bare):
        depth += 1 if bracket in '[{' else -1
        deepest = max(deepest, depth)
    return deepest > MOST_DEPTH or LONG_KEY.search(bare) is not None


def float_of(text):
    """A number with a fraction, which is in the range of those of 64 bits."""
    number = float(text)
    if math.isinf(number) and 'inf' not in text:
        raise ValueError
    return number


def tree_in(name):
    """The tree of a TOML document."""
    try:
        text = bytes_in(name, MOST_TASK_BYTES).decode().removeprefix('\ufeff')
        if is_too_deep(text):
            raise ValueError
        return tomllib.loads(text, parse_float=float_of)
    except ValueError:  # a wrong text, bytes that are none, a number of thousands of digits
        raise Refusal(3, 'task file: not TOML') from None


def set_in(name):
    """The set of a task file."""
    return set_of(tree_in(name))


def tasks_in(name):
    """The tasks of a task file, with periods and budgets in ticks."""
    return set_in(name).tasks


def set_of(tree):
    """The set of a task file's tree. The first fault decides."""
    fault = next(tree_faults(tree), None)
    if fault is not None:
        raise Refusal(3, f'task file: {fault}')
    scale = None
    if 'scale' in tree:
        p, q = tree['scale']
        scale = Scale(p // math.gcd(p, q), q // math.gcd(p, q))
    return TaskSet([task_of_table(table) for table in tree['task']], scale)


def task_of_table(table):
    return Task(table['name'], table['level'], table['period'], table['low'], table.get('high', table['low']))


def has_wide_number(tree):
    """Whether a whole number of more than 64 bits stands somewhere in a tree, which may have thousands of levels."""
    values = [tree]
    while values:
        value = values.pop()
        if isinstance(value, (dict, list)):
            values.extend(value.values() if isinstance(value, dict) else value)
        elif is_whole(value) and not -2 ** 63 <= value < 2 ** 63:
            return True
    return False


def unknown_key(table, known):
    """The messages on keys of a table that are not among the known ones; the first in the order of their bytes comes first."""
    return (f'unknown key {shown(key)}' for key in sorted(set(table) - set(known), key=str.encode))


def tree_faults(tree):
    """What is wrong with a tree, in order; what follows the first fault may not be asked for."""
    if has_wide_number(tree):
        yield 'not TOML'
    version = tree.get('version', 1)
    is_known = is_whole(version) and version in (1, 2)
    yield from unknown_key(tree, ['version', 'task'] + ['scale'] * (is_known and version == 2))
    if not is_known:
        yield 'unknown version'
    yield from scale_faults(tree)
    if tree.get('task', []) == []:
        yield 'no tasks'
    if not isinstance(tree['task'], list):
        yield 'task 0: wrong kind of task'
    for number, table in enumerate(tree['task'], 1):
        yield from (f'task {number}: {fault}' for fault in table_faults(table))
    yield from set_faults([task_of_table(table) for table in tree['task']])


def scale_faults(tree):
    if 'scale' in tree:
        scale = tree['scale']
        if not (isinstance(scale, list) and len(scale) == 2 and all(map(is_whole, scale))):
            yield 'task 0: wrong kind of scale'
        if not 1 <= scale[0] <= scale[1] <= MOST:
            yield 'task 0: out of range scale'


def table_faults(table):
    """What is wrong with the table of a task, in order."""
    if not isinstance(table, dict):
        yield 'wrong kind of task'
    yield from unknown_key(table, TASK_KEYS)
    yield from (f'missing key {key}' for key in TASK_KEYS[:4] if key not in table)
    for key in filter(table.__contains__, TASK_KEYS):
        if not (isinstance(table[key], str) if key in ('name', 'level') else is_whole(table[key])):
            yield f'wrong kind of {key}'
    if not re.fullmatch('[A-Za-z0-9_-]{1,32}', table['name']):
        yield 'bad name'
    if table['level'] not in (LOW, HIGH):
        yield 'out of range level'
    yield from (f'out of range {key}' for key in TASK_KEYS[2:] if key in table and not 1 <= table[key] <= MOST)
    if table['level'] == HIGH and 'high' not in table:
        yield 'missing key high'
    if table['level'] == LOW and 'high' in table:
        yield 'high budget on a low task'


def set_faults(tasks):
    """What is wrong with tasks of which each is right, in order."""
    if len(tasks) > MOST_TASKS:
        yield f'{len(tasks)} tasks, at most {MOST_TASKS}'
    yield from (f'task {number}: high budget below low budget' for number, task in enumerate(tasks, 1) if task.low > task.high)
    numbers = {}
    for number, task in enumerate(tasks, 1):
        first = numbers.setdefault(task.name, number)
        if first < number:
            yield f'tasks {first} and {number} have one name'


# ---- Traces ----

class Placed(NamedTuple):
    """A run of a trace's file, with the line that its record ends in, and the record's fields."""
    run: Run
    line: int
    record: list


def trace_in(tasks, lines):
    """The header of a trace of either version, and its runs in their places, which are read as they are asked for."""
    records = records_in(lines)
    try:
        header = next(records, (1, None))[1]
    except RecordTooLong:
        header = None
    if header not in HEADERS:
        raise Refusal(5, 'trace line 1: header is of no trace version')
    return header, TraceReader(tasks, header).placed(records)


def runs_in(tasks, name):
    """The runs of a trace of either version, in order, with lengths in ticks."""
    with text_file(name, MOST_TRACE_BYTES) as file:
        return [placed.run for placed in trace_in(tasks, lines_of(file))[1]]


class TraceReader:
    """Takes the records of a trace one after the other."""

    KINDS = {(event, '' if kind == IDLE else kind): kind for kind, event in EVENTS.items()}

    def __init__(self, tasks, header):
        self.header = header
        self.numbers = {task.name: number for number, task in enumerate(tasks, 1)}
        self.due = 0  # how many ticks came before

    def placed(self, records):
        """The runs of the records, each in its place; the first wrong record is refused."""
        count = 1
        try:
            for line, record in records:
                count += 1
                if count > MOST_ROWS + 1:
                    raise ValueError(f'more than {MOST_ROWS} rows')
                yield Placed(self.run_of(record), line, record)
        except RecordTooLong:
            raise Refusal(5, f'trace line {count + 1}: more than {MOST_IN_RECORD} characters') from None
        except ValueError as fault:
            raise Refusal(5, f'trace line {count}: {fault}') from None

    def run_of(self, record):
        """The run of a record; what is wrong with it is a ValueError."""
        if len(record) != len(self.header):
            raise ValueError(f'not {"five" if self.header == ROWS_HEADER else "six"} fields')
        if self.header == ROWS_HEADER:
            record = record[:2] + ['' if record[0] == 'release' else '1'] + record[2:]
        event, tick, length, name, count, how = record
        kind = self.KINDS.get((event, how))
        if kind is None or kind == IDLE and (name or count) or event == 'release' and length:
            raise ValueError('unknown event')
        task = self.numbers.get(name)
        if kind != IDLE and task is None:
            raise ValueError('unknown task')
        is_release = event == 'release'
        numbers = [number_of(text) for text in [tick] + [length] * (not is_release) + [count] * (kind != IDLE)]
        if None in numbers:
            raise ValueError('bad number')
        if numbers[0] != self.due:
            raise ValueError('wrong tick')
        job = None if kind == IDLE else Job(task, numbers[-1])
        return Run(kind, numbers[0], job) if is_release else self.ticks(kind, job, numbers[1])

    def ticks(self, kind, job, length):
        """The run of ticks of this length, which come next."""
        if length == 0 or length > 1 and kind not in (MORE, IDLE):
            raise ValueError('bad length')
        begin, self.due = self.due, self.due + length
        if self.due > MOST_TICKS:
            raise ValueError(f'more than {MOST_TICKS} ticks')
        return Run(kind, begin, job, length)
