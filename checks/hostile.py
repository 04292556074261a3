"""Gives hostile files to each script of tools/ that reads files, to found.py and flight.py, and to tools/record/fifo.c. Each run must
end with the status and the one line that the tables here say, with nothing else on either stream, within 30 seconds of a processor
and within 1 GiB of memory. So must runs on long files that are right, for which time by the square of their length would be too much.

usage: hostile.py
"""

import atexit
import concurrent.futures
import os
import pathlib
import resource
import shutil
import socket
import subprocess
import sys
import tempfile
from typing import NamedTuple

import with_tools
from usage import WrongWords, ends

TOOLS = pathlib.Path(__file__).resolve().parent.parent / 'tools'
SECONDS, BYTES = 30, 2 ** 30  # of a processor, and of memory
PATIENCE = 300  # seconds until a run that waits counts as one that never ends
LONG = 10 ** 8  # bytes of a line
DIGITS = '1' * 5000
SETTINGS = {'PYTHONIOENCODING': 'utf-8', 'PYTHONDONTWRITEBYTECODE': ''}


class Run(NamedTuple):
    """A call, of which {} is the name of the hostile file, and what must come of it: the status, the line on standard error, and
    the text of standard output."""
    words: list
    name: str
    status: int
    line: str = ''
    text: str = ''
    settings: dict = {}


# ---- Files that are none ----

class Files:
    """A folder of files, which goes at the end."""

    def __init__(self):
        self.folder = pathlib.Path(tempfile.mkdtemp())
        atexit.register(shutil.rmtree, self.folder, ignore_errors=True)
        self.count = 0

    def new(self):
        self.count += 1
        return self.folder / f'file{self.count}'

    def of(self, content):
        """The name of a file of these bytes, or of this text."""
        name = self.new()
        name.write_bytes(content if isinstance(content, bytes) else content.encode())
        return str(name)

    def pipe(self):
        name = self.new()
        os.mkfifo(name)
        return str(name)

    def socket(self):
        name = self.new()
        with socket.socket(socket.AF_UNIX) as one:
            one.bind(str(name))
        return str(name)

    def without_text(self, most):
        """Names of which no script may read, with what it says of them."""
        yield str(self.folder / 'absent'), 'No such file or directory'
        yield str(self.folder / 'absent\nline'), 'No such file or directory'
        yield str(self.folder), 'not a regular file'
        yield self.pipe(), 'not a regular file'
        yield '/dev/zero', 'not a regular file'
        yield self.socket(), 'No such device or address'
        yield '/dev/stdin', f'longer than {most} bytes'
        if os.path.exists('/proc/self/mem'):
            yield '/proc/self/mem', 'Input/output error'


# ---- Task files ----

TASK = '[[task]]\nname = "a"\nlevel = "low"\nperiod = {}\nlow = 1\n'
# What stands as a task's period, and what is said of it.
PERIODS = {
    '0': 'task 1: out of range period', '-1': 'task 1: out of range period', '4294967296': 'task 1: out of range period',
    DIGITS: 'not TOML', '-' + DIGITS: 'not TOML', '0x' + DIGITS: 'not TOML', '9223372036854775808': 'not TOML',
    'nan': 'task 1: wrong kind of period', '-inf': 'task 1: wrong kind of period', '1e400': 'not TOML',
    '1e4': 'task 1: wrong kind of period', '1.' + DIGITS: 'task 1: wrong kind of period',
    '[' * 80 + ']' * 80: 'task 1: wrong kind of period', '[' * 81 + ']' * 81: 'not TOML', '[' * 100000: 'not TOML',
    '[' * 100000 + ']' * 100000: 'not TOML', '{a=' * 100000 + '1' + '}' * 100000: 'not TOML', '"' * 100000: 'not TOML',
    '"""' + '\\"""' * 100000: 'not TOML', "'''" * 100001: 'not TOML', '"a': 'not TOML'}
EIGHTY = 'a' + '.a' * 79
# Whole documents, and what is said of them.
DOCUMENTS = {
    '': 'no tasks', '\ufeff': 'no tasks', '\0': 'not TOML', 'task = 1': 'task 0: wrong kind of task',
    'a' + '.a' * 80 + ' = 1': 'not TOML', EIGHTY + ' = 1': 'unknown key a', 'a' + '.a' * 200000 + ' = 1': 'not TOML',
    '[a' + '.a' * 200000 + ']': 'not TOML',
    '"a"' + " . 'a'" * 100000 + ' = 1': 'not TOML', (EIGHTY + ' = {') * 80 + '}' * 80: 'unknown key a',
    ''.join(f'k{number}=1\n' for number in range(50000)): 'unknown key k0', '[[task]]\n' * 30000: 'task 1: missing key name',
    'x' * 1000000 + ' = 1': 'unknown key ' + 'x' * 32, '"\x7f" = 1': 'not TOML', '"\\u007f\\u00e9\\n" = 1': 'unknown key ????',
    # Dots and brackets in words and comments are none of the document.
    '# ' + '.' * 1000 + '[' * 1000 + '\nname = "' + 'a.' * 100 + '[' * 100 + '"': 'unknown key name'}


def task_files(files):
    """Names of task files, and the message on each."""
    for period, fault in PERIODS.items():
        yield files.of(TASK.format(period)), fault
    for text, fault in DOCUMENTS.items():
        yield files.of(text), fault
    yield files.of(b'# \xff\n' + TASK.format(10).encode()), 'not TOML'


# ---- Traces ----

HEADER = 'event,tick,length,task,job,how\n'
NO_TRACE = 'line 1: header is of no trace version'
LONG_RECORD = 'more than 131072 characters'
# The records after the header, and what is said of them.
RECORDS = {
    f'tick,0,{DIGITS},a,1,more': 'line 2: bad number', f'idle,{DIGITS},1,,,': 'line 2: bad number', 'idle,-0,1,,,': 'line 2: bad number',
    'idle,0,nan,,,': 'line 2: bad number', 'idle,0,1e8,,,': 'line 2: bad number', 'idle,0,\u0661,,,': 'line 2: bad number',
    'idle,0,100000001,,,': 'line 2: more than 100000000 ticks', 'idle,0,4294967296,,,': 'line 2: bad number',
    'idle,0,1,,,' + 'x' * 200000: f'line 2: {LONG_RECORD}', 'idle,0,1,,,\n"' + 'x' * 200000 + '"': f'line 3: {LONG_RECORD}',
    '"' + 'x\n' * 200000: f'line 2: {LONG_RECORD}', '"\n",' * 200000: f'line 2: {LONG_RECORD}', ',' * 100000: 'line 2: not six fields',
    ',' * 200000: f'line 2: {LONG_RECORD}', 'release,0,,\0,1,kept': 'line 2: unknown task', '\0': 'line 2: not six fields',
    '"a': 'line 2: not six fields', '\n' * 200000 + 'idle,1,1,,,': 'line 2: wrong tick',
    'idle,0,1,,,\r\n\ridle,0,1,,,': 'line 3: wrong tick'}


def traces(files):
    """Names of traces of a task a, and the message on each."""
    for records, fault in RECORDS.items():
        yield files.of(HEADER + records), fault
    for text in ('', '\n', '\ufeff', '\0', 'event', HEADER.replace(',', ';'), 'x' * 200000):
        yield files.of(text), NO_TRACE
    yield files.of(b'\xff' + HEADER.encode()), NO_TRACE
    yield files.of(HEADER.encode() + b'idle,0,1,,,\xff'), 'line 2: unknown event'
    yield files.of(HEADER.encode('utf-16')), NO_TRACE
    yield files.of(b'x' * LONG), NO_TRACE
    yield files.of(HEADER.encode() + b'x' * LONG), f'line 2: {LONG_RECORD}'


# ---- Recordings ----

EVENTS = 'time,event,task\n'
LINE = ' {}-1 [000] {}: sched_switch: a:1 [120] S ==> {}:2 [98]\n'
# The records of a CSV file after its header, in ticks of a millisecond, and what is said of them.
EVENT_RECORDS = {
    f'{DIGITS},run,a': f'line 2: {"1" * 64} is no time', '1e20,run,a': 'line 2: 1e20 is no time',
    '1' + '0' * 20 + ',run,a': 'line 2: 1' + '0' * 20 + ' is no time', '-1,run,a': 'line 2: -1 is no time',
    'nan,run,a': 'line 2: nan is no time',
    '\u0661,run,a': 'line 2: \u0661 is no time', '"0\n0",run,a': 'line 3: 0?0 is no time', '0,run,\0': 'line 2: run of ?, which is no task',
    '0,' + 'x' * 1000 + ',a': 'line 2: ' + 'x' * 64 + ' is no event', '0,run,a\n0,release,a\n1000000000000,run,.': (
        '1000000000 ticks of 1000 us are recorded, at most 10000000 make a trace'),
    '0,run,a\n5,release,a\n4,finish,': 'line 4: its time is before that of line 3', '0,finish,': 'no release is recorded',
    '0,end,a\n0,release,a\n0,finish,': 'no whole tick of 1000 us is recorded on this processor',
    '0,run,' + 'x' * 200000: f'line 2: {LONG_RECORD}',
    '"': 'line 2: not three fields', ',' * 10000: 'line 2: not three fields'}
# A report, and what is said of it.
REPORTS = {
    '': 'no release is recorded', '\0' * 1000: 'no release is recorded', 'x' * 200000: f'line 1: {LONG_RECORD}',
    LINE.format('a', f'{DIGITS}.0', 'a'): 'line 1: an event has a form that is not known',
    LINE.format('a', '1e20', 'a'): 'line 1: an event has a form that is not known',
    LINE.format('a', '0.0', 'a').replace('-1 ', f'-{DIGITS} '): 'line 1: an event has a form that is not known',
    LINE.format('a', '0.0', 'a').replace('[98]', f'[{DIGITS}]'): 'line 1: sched_switch has a form that is not known',
    LINE.format('a', '0.0', 'a').replace('[000]', f'[{DIGITS}]'): 'line 1: an event has a form that is not known',
    # For this a search without bounds would take time by the cube of its length.
    ' a-1 [000] 0.0: sched_switch: prev_comm=' + ' prev_pid=1 prev_prio=1 next_comm=a' * 3000: (
        'line 1: sched_switch has a form that is not known'),
    ' a' + '-1 ' * 40000 + ': sched_switch: ': 'line 1: an event has a form that is not known'}


def recordings(files):
    """The words of sched.py after the task file, and the message on each."""
    for records, fault in EVENT_RECORDS.items():
        yield ['{}', '1000'], files.of(EVENTS + records), fault
    for text in ('', '\0', 'time', '\n\n', 'x' * 100000):
        yield ['{}', '1000'], files.of(text), 'line 1: the header is not time,event,task'
    for text, fault in REPORTS.items():
        yield ['{}', '1000', '0', 'a=a'], files.of(text), fault
    for words in (['{}', '1000'], ['{}', '1000', '0', 'a=a']):
        yield words, files.of(b'x' * LONG), f'line 1: {LONG_RECORD}'
    yield ['{}', '1000', '0', 'a=' + 'b' * 1000], files.of(''), f'a={"b" * 64}: no task has the name'


# ---- Studies and kept cases ----

STUDY = 'accept 1 10 8\nin parts of 5\n'
TABLE = ''.join(f'{percent} 0\n' for percent in range(100, 201, 10))
# What stands in a study's file, and makes it none.
NO_STUDIES = [
    '', '\n', STUDY.replace('10', DIGITS), STUDY.replace('8', DIGITS), STUDY.replace('10', '0'), STUDY.replace('10', '-1'),
    STUDY.replace('10', 'nan'), STUDY.replace('8', '33'), STUDY.replace('of 5', 'of ' + DIGITS), STUDY.replace('of 5', 'of 0'),
    'accept 0 18446744073709551615 8\nin parts of 1\n', 'accept 0 18446744073709551615 8\nin parts of 18446744073709551615\n',
    'accept 0 1000001 8\nin parts of 1\n', '\0' * 100, b'\xff\xff', 'x' * 100000]
# What stands in a part's file, and makes it none.
NO_PARTS = ['', '\0', b'\xff', 'accept 1 5 8\n', f'accept {DIGITS} 5 8\n{TABLE}', f'accept 1 18446744073709551615 8\n{TABLE}'] + [
    'accept 1 5 8\n' + TABLE.replace(' 0', f' {count}') for count in (DIGITS, '-1', 'nan', '6')]
MANY = 'parts, a study has at most 1000000: take fewer sets, or more in a part'
MOST = str(2 ** 64 - 1)
NEW_STUDIES = {
    ('0', MOST, '8', '1'): f'{MOST} {MANY}', ('0', '1000001', '8', '1'): f'1000001 {MANY}',
    ('0', MOST, '8', MOST): f'{MOST} is not from 1 to 1000000', ('0', DIGITS, '8', '1'): f'{"1" * 64} is not from 1 to {MOST}',
    ('-1', '1', '8', '1'): f'-1 is not from 0 to {MOST}', ('1\n', '1', '8', '1'): f'1? is not from 0 to {MOST}',
    ('1', '1', 'nan', '1'): 'nan is not from 2 to 32'}
NO_CASES = [
    '', '\0', b'\xff', '[]', '1', 'nan', DIGITS, '"a"', '{}', '[' * 100000, '[' * 100000 + ']' * 100000, '{"a":' * 100000,
    '{"command": 1, "words": [], "files": [], "wanted": null}', '{"command": "check", "words": [1], "files": [], "wanted": null}',
    '{"command": "check", "words": [], "files": ["\\u0100"], "wanted": null}',
    '{"command": "check", "words": [], "files": [], "wanted": [0]}',
    '{"command": "check", "words": ["\\u0000"], "files": [], "wanted": null}',
    '{"command": "check", "words": "a", "files": [], "wanted": null}']


def study_in(files, text, part=None):
    """The name of a study's folder with this text, and a first part with that one, if it is given."""
    folder = files.new()
    (folder / 'parts').mkdir(parents=True)
    shutil.move(files.of(text), folder / 'study.txt')
    if part is not None:
        shutil.move(files.of(part), folder / 'parts' / '0.txt')
    return str(folder)


def studies(files):
    """Runs of study.py."""
    commands = (['left', '{}'], ['part', '{}', '0'], ['share', '{}', '0', '1'], ['sum', '{}'], ['table', '{}'])
    settings = {'EDFVD': 'true'}
    for place, text in enumerate(NO_STUDIES):
        for command in commands if place in (0, 10) else commands[:1]:
            fault = 'no study'
            folder = study_in(files, text)
            two_lines = isinstance(text, str) and '\n' in text
            at = f'{folder}/study.txt' if two_lines else folder
            yield Run(['study/study.py', *command], folder, 1, f'study: {at} has {fault}', settings=settings)
    for part in NO_PARTS:
        folder = study_in(files, STUDY, part)
        yield Run(['study/study.py', 'sum', '{}'], folder, 1, f'study: {folder}/parts/0.txt is no part')
    for words, fault in NEW_STUDIES.items():
        yield Run(['study/study.py', 'new', '{}', *words], str(files.new()), 1, f'study: {fault}')
    for name, make in {'study.txt': None, 'parts/0.txt': None, 'parts/x': None}.items():
        folder = study_in(files, STUDY)
        place = pathlib.Path(folder) / name
        place.unlink(missing_ok=True)
        os.mkfifo(place)
        line = f'study: {folder} has no study' if name == 'study.txt' else f"study: [Errno 22] not a regular file: '{place}'"
        yield Run(['study/study.py', 'sum', '{}'], folder, 1, line)
    yield Run(['study/study.py', 'part', '{}', '0'], study_in(files, STUDY), 1, 'study: true accept 1 5 8: status 0 ', settings=settings)


# ---- Long files that are right ----

def half_served(ticks):
    """A trace in which two tasks of period 1 release a job at each boundary, and have the ticks in turn."""
    return 'event,tick,task,job,how\n' + ''.join(
        f'release,{tick},a,{tick + 1},kept\nrelease,{tick},b,{tick + 1},kept\ntick,{tick},{"ab"[tick % 2]},{tick // 2 + 1},done\n'
        for tick in range(ticks))


def a_job_in_each_tick(ticks):
    """A recording in which a task is released at each boundary and ends a tenth of a tick before the next one, and its trace."""
    events = EVENTS + ''.join(
        f'{1000 * tick},release,a\n{1000 * tick},run,a\n{1000 * tick + 900},end,a\n' for tick in range(ticks))
    trace = HEADER + ''.join(f'release,{tick},,a,{tick + 1},kept\ntick,{tick},1,a,{tick + 1},done\n' for tick in range(ticks))
    return events + f'{1000 * ticks},finish,\n', trace


def long_runs(files, tasks):
    # All jobs but the first one are late: two are released at each boundary, and one is served.
    two = files.of(TASK.format(1) + TASK.format(1).replace('"a"', '"b"'))
    yield Run(['explain.py', two, '{}', '1', '1'], files.of(half_served(10000)), 6, text='legal late 19999 first b 1\n')
    events, trace = a_job_in_each_tick(40000)
    yield Run(['record/sched.py', tasks, '{}', '1000'], files.of(events), 0, text=trace, line=(
        'a tick is 1000 us, of one 0 us lost at most; moved: 40000 of 80001 events, by 100 us at most, the first in line 4; '
        'moved back: 0 of 40000 ends'))


# ---- All runs ----

def of_tasks_and_traces(files, tasks, trace):
    """Runs of the scripts that read a task file, or a trace of one: of explain.py with each file, and of the others in turn."""
    of_tasks = [
        ['perfetto.py', '{}', trace], ['svg.py', '{}', trace, '0', '1'], ['jobs.py', '{}', '100'], ['divisors.py', '{}'],
        ['record/sched.py', '{}', trace, '1000']]
    for number, (name, fault) in enumerate(task_files(files)):
        yield Run(['explain.py', '{}', trace], name, 3, text=f'task file: {fault}\n')
        words = of_tasks[number % len(of_tasks)]
        is_sched = words[0] == 'record/sched.py'
        yield Run(words, name, *((1, f'sched: task file: {fault}') if is_sched else (3, f'task file: {fault}')))
    of_trace = [['perfetto.py', tasks, '{}'], ['svg.py', tasks, '{}', '0', '1']]
    for number, (name, fault) in enumerate(traces(files)):
        yield Run(['explain.py', tasks, '{}'], name, 5, text=f'trace {fault}\n')
        yield Run(of_trace[number % len(of_trace)], name, 5, f'trace {fault}')


def of_no_files(files, tasks, trace):
    """Runs with names of which no script may read."""
    case = [sys.executable, '{}']
    groups = {
        2 ** 20: [['explain.py', '{}', trace], ['perfetto.py', '{}', trace], ['svg.py', '{}', trace, '0', '1'], ['jobs.py', '{}', '100'],
                  ['divisors.py', '{}'], ['record/sched.py', '{}', trace, '1000']],
        2 ** 27: [['explain.py', tasks, '{}'], ['perfetto.py', tasks, '{}'], ['svg.py', tasks, '{}', '0', '1']],
        2 ** 31: [['record/sched.py', tasks, '{}', '1000'], ['record/sched.py', tasks, '{}', '1000', '0', 'a=a']],
        2 ** 28: [['../checks/found.py', *case]]}
    for most, group in groups.items():
        for words in group:
            for name, fault in files.without_text(most):
                # Of text, a line of an endless file is too long before the file is.
                if name == '/dev/stdin' and most in (2 ** 27, 2 ** 31):
                    continue
                shown = name.replace('\n', '?')
                yield Run(words, name, 7, f'{os.path.basename(words[0])}: {shown}: {fault}')
    yield Run(['explain.py', tasks, '{}'], '/dev/stdin', 5, text=f'trace {NO_TRACE}\n')
    yield Run(['record/sched.py', tasks, '{}', '1000'], '/dev/stdin', 1, f'sched: line 1: {LONG_RECORD}')
    long_file = files.of(b'a' * LONG)
    yield Run(['divisors.py', '{}'], long_file, 7, f'divisors.py: {long_file}: longer than 1048576 bytes')
    absent = str(files.folder / 'absent' / 'tasks.toml')
    yield Run(['../checks/flight.py', str(files.folder / 'absent')], '', 7, f'flight.py: {absent}: No such file or directory')


# Lines of a task file for fifo.c after `[[task]]`, and of a work file after its header, that are none.
NO_KEYS = [
    'period = 0', 'period = -5', f'period = {DIGITS}', 'period = 1000001', 'period = nan', 'name = ""', 'name = "' + 'a' * 33 + '"',
    'level = "other"', '\0']
NO_WORK = [
    'a,0,-5', 'a,0,0', 'a,-1,1', f'a,0,{DIGITS}', 'a,0,1.5', 'a,0', 'a', 'a,0,1,', 'b,0,1', ',0,1', 'a,0,1000001', '\0', 'x' * 300]
# Numbers of ticks and of microseconds, and a processor, of which one is none.
NO_NUMBERS = ['-1 1 0', 'x 1 0', '0 1 0', '1 0 0', f'1 {DIGITS} 0', '1 1 -1', '1 1 1024', '1x 1 0']
NUMBERS = ['40', '1000', '1023']  # there is no such processor, so that a call with right files ends, too


def of_fifo(program, files, tasks, work):
    """Runs of record/fifo.c's program: a task file and a work file of each kind, and numbers that are none."""
    header = 'task,release,need\n'

    def of_tasks(text, line, work=work):
        name = files.of(text)
        return Run([program, '{}', work, *NUMBERS], name, 1, f'fifo: {name}: {line}')

    def of_work(text, number):
        name = files.of(text)
        return Run([program, tasks, '{}', *NUMBERS], name, 1, f'fifo: {name}: line {number} is not read here')
    for name, fault in (str(files.folder / 'absent'), 'No such file or directory'), *(
            (name, 'not a regular file') for name in (files.pipe(), str(files.folder), '/dev/zero')):
        for words in (['{}', work], [tasks, '{}']):
            yield Run([program, *words, *NUMBERS], name, 1, f'fifo: {name}: {fault}')
    yield from (of_tasks(f'[[task]]\n{line}\n', 'line 2 is not read here') for line in NO_KEYS)
    yield of_tasks('period = 5\n', 'line 1 is not read here')
    yield of_tasks('', 'no tasks')
    yield of_tasks('[[task]]\n', 'task 1 has no name, no period or no such budgets')
    yield of_tasks('[[task]]\n' * 17, 'line 17 is not read here')
    # Four periods with a least common multiple of some 10^24.
    many = ''.join(TASK.format(period).replace('"a"', f'"a{period}"') for period in (999983, 999979, 999961, 999959))
    yield Run([program, '{}', files.of(header), *NUMBERS], files.of(many), 1, 'fifo: the periods are out of range')
    yield from (of_work(f'{header}{record}\n', 2) for record in NO_WORK)
    yield of_work(f'{header}a,5,1\na,4,1\n', 3)
    yield of_work('', 1)
    yield Run([program, tasks, '{}', *NUMBERS], work, 1, 'fifo: one processor, memory and SCHED_FIFO: Invalid argument')
    for numbers in NO_NUMBERS:
        yield Run([program, tasks, '{}', *numbers.split()], work, 2, 'usage: fifo TASKS WORK TICKS MICROSECONDS CPU [plain|keep]')


def fifo_program(files):
    """The program of record/fifo.c under the sanitizers, or None where there is no compiler for it."""
    program = str(files.new())
    made = subprocess.run(
        [os.environ.get('CC', 'cc'), '-O1', '-fsanitize=address,undefined', '-fno-sanitize-recover=all', '-pthread', '-o', program,
         'record/fifo.c'], cwd=TOOLS, capture_output=True) if shutil.which(os.environ.get('CC', 'cc')) else None
    return program if made and made.returncode == 0 else None


def all_runs(files):
    tasks, trace = files.of(TASK.format(10)), files.of(HEADER)
    yield from of_no_files(files, tasks, trace)
    yield from of_tasks_and_traces(files, tasks, trace)
    for words, name, fault in recordings(files):
        yield Run(['record/sched.py', tasks, *words], name, 1, f'sched: {fault}')
    yield from long_runs(files, tasks)
    yield from studies(files)
    for case in NO_CASES:
        yield Run(['../checks/found.py', sys.executable, '{}'], (name := files.of(case)), 1, f'found: {name} is no kept case')
    program = fifo_program(files) if sys.platform == 'linux' else None
    if program is None:
        print('hostile: fifo.c is left out, since it cannot be compiled with sanitizers here')
    else:
        yield from of_fifo(program, files, tasks, files.of('task,release,need\na,0,1\n'))


def limit(with_memory):
    resource.setrlimit(resource.RLIMIT_CPU, (SECONDS, SECONDS))
    if with_memory:
        resource.setrlimit(resource.RLIMIT_AS, (BYTES, BYTES))


def fault_of(run, cache):
    """What is wrong with a run, or None. Compiled scripts are kept in the folder `cache`."""
    words = [run.name if word == '{}' else word for word in run.words]
    is_script = words[0].endswith('.py')
    with open('/dev/zero', 'rb') as zeros:
        try:
            ended = subprocess.run(
                ([sys.executable] if is_script else []) + words, cwd=TOOLS, stdin=zeros, capture_output=True, timeout=PATIENCE,
                preexec_fn=lambda: limit(is_script), env={**os.environ, **run.settings, **SETTINGS, 'PYTHONPYCACHEPREFIX': cache})
        except subprocess.TimeoutExpired:
            return 'no end'
    wanted = run.status, run.text, run.line and f'{run.line}\n'
    found = ended.returncode, ended.stdout.decode(errors='replace'), ended.stderr.decode(errors='replace')
    others = (f'{mine!r:.300}, wanted {other!r:.300}' for mine, other in zip(found, wanted) if mine != other)
    return ' and '.join(others) or None


def main(words):
    if words:
        raise WrongWords
    files = Files()
    runs = list(all_runs(files))
    with concurrent.futures.ThreadPoolExecutor(os.cpu_count()) as pool:
        faults = list(pool.map(lambda run: fault_of(run, str(files.folder / 'cache')), runs))
    for run, fault in zip(runs, faults):
        if fault is not None:
            print(f'{" ".join(run.words)[:100]} of {run.name}: {fault}')
    failed = sum(fault is not None for fault in faults)
    print(f'hostile: {len(runs)} runs, {failed} failed')
    return 1 if failed else 0


if __name__ == '__main__':
    ends(main, __doc__)
