"""Spoils the example files by a fixed seed, and asserts what the program answers to each.

A case is a command on its example files, of which one or more were spoilt: cut at a place, with bytes flipped, put in or
taken out, with records doubled, dropped or swapped, with numbers, words and values replaced, with quotes, other line ends
or a byte order mark. Each case is run twice, and ends both times within SECONDS of processor time and BYTES of memory,
with the same status and text: one of those that docs/MISTAKES.md and docs/COMMANDS.md name for the command, and nothing
on standard error. Status 9 is not allowed, since there is enough memory. Of `live` the text may be another one. A trace that
is written is judged legal. Files with another answer are kept, and named. A third of the cases are files that are cut short,
at each place if there are enough cases; the others have one to four changes. Rows of a trace are replaced by others, with their
ticks numbered again, and in some cases the numbers of the command line are. How often each status came is printed.

usage: mutate.py PROGRAM [CASES [SEED]]
"""

import glob
import re
import resource

import with_tools
from cases import Dice, Runner, keep, program_count_seed, tell
from usage import ends

SECONDS = 2
BYTES = 16 * 1024 * 1024
# `runall` keeps the rows of several processors at once.
BYTES_OF_SEVERAL = 4 * BYTES

TRACE_HEADER = 'event,tick,length,task,job,how'

# Each command, its files, and the words after them.
TASK_FILES = sorted(glob.glob('*/tasks.toml') + glob.glob('refused/*.toml') + glob.glob('certified/*grown.toml'))
EXAMPLES = [('check', [name], []) for name in TASK_FILES] + 2 * [('check', ['certified/outgrown.toml'], [])] + [
    ('run', ['overrun/tasks.toml', 'overrun/work.csv'], ['12']),
    ('judge', ['judged/tasks.toml', 'judged/legal.csv'], []),
    ('judge', ['judged/tasks.toml', 'judged/illegal.csv'], []),
    ('judge', ['judged/tasks.toml', 'judged/late.csv'], ['1', '1']),
    ('judge', ['overrun/tasks.toml', 'overrun/run.txt'], []),
    ('judge', ['runs/tasks.toml', 'runs/long.csv'], []),
    ('chart', ['overrun/tasks.toml', 'overrun/run.txt'], []),
    ('chart', ['runs/tasks.toml', 'runs/rows.csv'], []),
    ('report', ['overrun/tasks.toml', 'overrun/run.txt'], []),
    ('report', ['runs/tasks.toml', 'runs/long.csv'], []),
    ('migrate', ['runs/tasks.toml', 'runs/rows.csv'], []),
    ('migrate', ['overrun/tasks.toml', 'overrun/run.txt'], []),
    ('migrate', ['runs/tasks.toml', 'runs/long.csv'], []),
    ('live', ['live/tasks.toml'], ['40']),
    ('live', ['live/one.toml'], ['3']),
    ('demand', ['demand/within.csv'], []),
    ('demand', ['demand/past.csv'], []),
    ('demand', ['demand/sensor.csv'], []),
    ('demand', ['demand/book.csv'], []),
    ('partition', ['several/tasks.toml'], ['2']),
    ('partition', ['avionics/tasks.toml'], ['3']),
    ('runall', ['several/tasks.toml', 'several/work.csv'], ['5', '2']),
    ('runall', ['avionics/tasks.toml', 'avionics/work.csv'], ['20', '16']),
    ('stretch', ['control/tasks.toml'], []),
    ('stretch', ['avionics/tasks.toml'], []),
    ('run', ['certified/tasks.toml', 'certified/work.csv'], ['16']),
    ('judge', ['certified/grown.toml', 'certified/run.txt'], []),
    ('judge', ['certified/outgrown.toml', 'certified/run.txt'], []),
    ('live', ['certified/grown.toml'], ['40']),
    ('partition', ['certified/tasks.toml'], ['2']),
    ('stretch', ['certified/tasks.toml'], []),
]

# ---- What may be answered ----

NUMBER = '(?:0|[1-9][0-9]*)'
COUNT = '[1-9][0-9]*'
NAME = '[A-Za-z0-9_-]{1,32}'
RATIO = f'{NUMBER}/{COUNT}'
KEY = '(?:version|task|name|level|period|low|high|scale)'
SHOWN = '[!-~]{0,32}'
UNHELD = f'(?:scale {COUNT}/{COUNT} does not hold\n)?'
LOADS = [f'U_LL {RATIO}', f'U_HL {RATIO}', f'U_HH {RATIO}']
TASK_FAULT = '|'.join([
    'not TOML', f'unknown key {SHOWN}', 'unknown version', 'no tasks', f'task {COUNT}: missing key {KEY}',
    f'task {COUNT}: unknown key {SHOWN}', f'task {NUMBER}: wrong kind of {KEY}', f'task {NUMBER}: out of range {KEY}',
    f'task {COUNT}: bad name', f'task {COUNT}: high budget on a low task', f'{COUNT} tasks, at most 128',
    f'task {COUNT}: high budget below low budget', f'tasks {COUNT} and {COUNT} have one name',
    f'task {COUNT}: periods out of range'])
WORK_FAULT = '|'.join([
    'not three fields', 'header is not task,release,need', 'unknown task', 'bad number', 'need is 0',
    'release before the last one', f'too soon, next {COUNT}', 'more than 1000000 rows'])
TRACE_FAULT = '|'.join([
    'not five fields', 'not six fields', 'header is of no trace version', 'unknown event', 'unknown task', 'bad number',
    'wrong tick', 'bad length', 'more than 2000000 rows', 'more than 100000000 ticks'])
DEMAND_FAULT = '|'.join([
    'header is not task,period,deadline,budget', 'no tasks', 'more than 128 tasks', 'not four fields', 'bad name',
    'name used before', 'bad number', 'number is 0', 'deadline after period', 'periods out of range'])
WHY = 'too_soon|wrong_count|wrong_kept|not_pending|not_least|wrong_how|idle_pending'
RUN = '|'.join([
    f'release,{NUMBER},,{NAME},{COUNT},(?:kept|dropped)', f'tick,{NUMBER},{COUNT},{NAME},{COUNT},more',
    f'tick,{NUMBER},1,{NAME},{COUNT},(?:done|stop|over)', f'idle,{NUMBER},{COUNT},,,'])
EDF_ROW = '|'.join([f'release {NAME} {COUNT} at {NUMBER}', f'tick {NUMBER} {NAME} {COUNT}', f'idle {NUMBER}'])
COUNTS = ' '.join(f'{word} {NUMBER}' for word in [
    'released', 'kept', 'dropped', 'discarded', 'done', 'stopped', 'ticks'])

NOT_ADMITTED = f'not admitted: {" ".join(LOADS)}\n'
TASKS_REFUSED = f'task file: (?:{TASK_FAULT})\n'
TRACE_REFUSED = f'trace line {COUNT}: (?:{TRACE_FAULT})\n'
ILLEGAL = f'illegal row {COUNT} (?:{WHY})\n'
LEGAL = 'legal late 0\n'
LATE = f'legal late {COUNT} first {NAME} {COUNT}\n'
USAGE = 'usage: check TASKS .*\n'
TRACE = f'{TRACE_HEADER}\n(?:(?:{RUN})\n)*'
NOT_SCHEDULABLE = f'not schedulable: demand {COUNT} in length {COUNT}\n(?:(?:{EDF_ROW})\n)+late {NAME} {COUNT}\n'
NOT_PARTITIONED = f'not partitioned: task {NAME} fits on none of {COUNT}\n'
LONG = f'trace has {COUNT} ticks, a chart has at most 2000000\n'

# The texts of each status of a command. A given scale judges sets that the test does not admit, and jobs may be late.
ON_A_TRACE = {1: NOT_ADMITTED, 3: TASKS_REFUSED, 5: TRACE_REFUSED, 6: ILLEGAL}
FORMS = {
    'check': {
        0: '\n'.join([f'tasks {COUNT}'] + LOADS + [f'rule (?:plain|virtual\nx {RATIO})\n{UNHELD}']),
        1: NOT_ADMITTED,
        3: TASKS_REFUSED,
    },
    'run': {
        0: TRACE,
        1: NOT_ADMITTED,
        2: USAGE,
        3: TASKS_REFUSED,
        4: f'work file line {COUNT}: (?:{WORK_FAULT})\n',
    },
    'judge': {0: LEGAL, **ON_A_TRACE},
    'judge by a scale': {0: LEGAL, 2: USAGE, 3: TASKS_REFUSED, 5: TRACE_REFUSED, 6: f'(?:{ILLEGAL}|{LATE})'},
    'chart': {
        0: f'(?:{NAME} +[#DSO.]*\n)+\\(mode\\) +[HL]*\n',
        **ON_A_TRACE,
        5: f'(?:{TRACE_REFUSED}|{LONG})',
    },
    'report': {
        0: f'(?:task {NAME} {COUNTS} response (?:{COUNT}|-)\n)+idle {NUMBER}\nswitches {NUMBER}\n',
        **ON_A_TRACE,
    },
    'migrate': {0: TRACE, **ON_A_TRACE},
    'live': {0: TRACE, 1: NOT_ADMITTED, 2: USAGE, 3: TASKS_REFUSED},
    'demand': {
        0: f'schedulable, demand checked to {COUNT}\n',
        10: NOT_SCHEDULABLE,
        11: f'demand file line {COUNT}: (?:{DEMAND_FAULT})\n',
    },
    'partition': {0: f'(?:processor {COUNT}(?: {NAME})*\n)+', 2: USAGE, 3: TASKS_REFUSED, 12: NOT_PARTITIONED},
    'runall': {
        0: f'(?:processor {COUNT}\n{TRACE})+',
        2: USAGE,
        3: TASKS_REFUSED,
        4: f'work file line {COUNT}: (?:{WORK_FAULT})\n',
        12: NOT_PARTITIONED,
    },
    'stretch': {
        0: f'(?:stretch {NUMBER}\n(?:U_HH {RATIO} at {NUMBER}\n){{1,2}}|stretch none\nU_HH {RATIO} at 0\n)',
        3: TASKS_REFUSED,
    },
}


def fault_of(form, status, text, errors):
    """What is wrong with an answer, or None."""
    wanted = FORMS[form].get(status)
    if wanted is None:
        return f'status {status}'
    if not re.fullmatch(wanted.encode(), text):
        return f'status {status} with another text'
    if form == 'chart' and status == 0 and len({len(line) for line in text.splitlines()}) != 1:
        return 'a chart with lines of several lengths'
    if form in ('partition', 'runall') and status == 0 and not has_processors_in_order(text):
        return 'processors out of order'
    if form == 'demand' and status == 10 and not has_each_tick(text):
        return 'a counterexample of another length'
    if errors:
        return 'words on standard error'
    return None


def has_processors_in_order(text):
    """Whether the numbers of the processors rise, from 1 on."""
    numbers = [int(line.split()[1]) for line in text.splitlines() if line.startswith(b'processor ')]
    return numbers[0] == 1 and numbers == sorted(set(numbers))


def has_each_tick(text):
    """Whether the ticks of a counterexample are numbered one by one, up to the length in its first line."""
    ticks = [int(line.split()[1]) for line in text.splitlines() if line.split()[0] in (b'tick', b'idle')]
    return ticks == list(range(int(text.splitlines()[0].split()[-1])))


# ---- How files are spoilt ----

BYTES_TO_PUT = [bytes([byte]) for byte in b'\0\t\n\r "#\',-.0159=[\\]_a{}\x7f\x80\xc3\xef\xff']
LIMITS = [text.encode() for text in [
    '', '0', '1', '00', '0000000001', '00000000001', '4294967295', '4294967296', '9223372036854775807',
    '9223372036854775808', '18446744073709551615', '18446744073709551616', '99999999999999999999', '-1', '+1', '-0',
    '1.0', '1e3', '0x10', '1_000', 'inf', ' 1', '1 ', '100000000', '100000001', '500000',
    '500001']]
WORDS = [text.encode() for text in [
    '', 'task', 'name', 'level', 'period', 'low', 'high', 'version', 'ctl', 'log', 'event', 'tick', 'length', 'job', 'how',
    'release', 'deadline', 'budget',
    'scale', 'need', 'kept', 'dropped', 'more', 'done', 'stop', 'over', 'idle', 'Task', 'CTL', 'ctl.log',
    'l' * 32, 'l' * 33]]
VALUES = [text.encode() for text in [
    '[1, 2]', '[2, 4]', '[1, 1]', '[3, 2]', '[1, 2, 3]', '[1, "2"]',
    'true', '"10"', '1.5', 'nan', '[]', '[10]', '[[]]', '{}', '{ a = 1 }', '1979-05-27', '07:32:00', '"""a"""', "'low'",
    '"l\\u006fw"', '"\\q"', '"\xff"', '"high"', '10 10']]
MARK = b'\xef\xbb\xbf'


def place_in(data, dice):
    return dice.below(len(data) + 1)


def cut(data, dice):
    return data[:place_in(data, dice)]


def cut_front(data, dice):
    return data[place_in(data, dice):]


def flip(data, dice):
    if not data:
        return data
    place = dice.below(len(data))
    return data[:place] + bytes([data[place] ^ (1 << dice.below(8))]) + data[place + 1:]


def put_byte(data, dice):
    place = place_in(data, dice)
    return data[:place] + dice.one_of(BYTES_TO_PUT) + data[place:]


def take_bytes(data, dice):
    place = place_in(data, dice)
    return data[:place] + data[place + 1 + dice.below(3):]


def other_byte(data, dice):
    place = place_in(data, dice)
    return data[:place] + dice.one_of(BYTES_TO_PUT) + data[place + 1:]


def on_records(change):
    """A change of the list of records."""
    def changed(data, dice):
        records = data.splitlines(keepends=True)
        if records:
            change(records, dice)
        return b''.join(records)
    return changed


def drop_one(records, dice):
    if records:
        del records[dice.below(len(records))]


def double_one(records, dice):
    if records:
        records.insert(dice.below(len(records) + 1), dice.one_of(records))


def swap_two(records, dice):
    if records:
        first, second = dice.below(len(records)), dice.below(len(records))
        records[first], records[second] = records[second], records[first]


def other_how(records, dice):
    """Another end of a row, or another task, count or length."""
    if records:
        place = dice.below(len(records))
        words = [b'more', b'done', b'stop', b'over', b'kept', b'dropped']
        records[place] = dice.one_of([
            replaced(rb'(?<=,)(?:more|done|stop|over|kept|dropped)(?=\n)', words),
            replaced(rb'(?<=,)(?:ctl|log)(?=,)', [b'ctl', b'log']),
            replaced(rb'(?<=,)[0-9]+(?=,[a-z]+\n)', [b'1', b'2', b'3']),
            replaced(rb'(?<=,)[0-9]+(?=,[a-z]*,)', [b'0', b'1', b'2', b'3', b'5', b'6'])])(records[place], dice)


drop_record, double_record, swap_records = on_records(drop_one), on_records(double_one), on_records(swap_two)


@on_records
def repeat_record(records, dice):
    place = dice.below(len(records))
    records[place:place] = [records[place]] * (1 + dice.below(300))


@on_records
def empty_record(records, dice):
    records.insert(dice.below(len(records) + 1), dice.one_of([b'\n', b'\r\n', b',\n', b'""\n', b' \n', b'#\n']))


@on_records
def drop_records(records, dice):
    first = dice.below(len(records))
    del records[first:first + 1 + dice.below(len(records))]


@on_records
def other_rows(records, dice):
    """Other records of a trace, whose ticks are counted again."""
    for _ in range(1 + dice.below(3)):
        dice.one_of([drop_one, double_one, swap_two, other_how])(records, dice)
    due = 0
    for place, record in enumerate(records):
        fields = record.split(b',')
        if len(fields) in (5, 6) and fields[0] in (b'release', b'tick', b'idle'):
            fields[1] = str(due).encode()
            if fields[0] != b'release':
                due += int(fields[2]) if len(fields) == 6 and fields[2].isdigit() else 1
            records[place] = b','.join(fields)


def double_file(data, dice):
    return data + data


def replaced(pattern, choices):
    """A change of one match of the pattern into one of the choices."""
    def changed(data, dice):
        matches = list(re.finditer(pattern, data))
        if not matches:
            return data
        match = dice.one_of(matches)
        return data[:match.start()] + dice.one_of(choices) + data[match.end():]
    return changed


other_number = replaced(rb'[0-9]+', LIMITS)
other_word = replaced(rb'[A-Za-z]+', WORDS)
other_value = replaced(rb'(?<== )[^\n]+', VALUES)


def other_scale(data, dice):
    """Of a task file another scale, or one where there was none, mostly in version 2; or another version."""
    if b'level' not in data:
        return data
    scale = b'scale = [%d, %d]\n' % (dice.below(6), dice.below(8))
    version = dice.one_of(6 * [b'version = 2\n'] + [b'', b'version = 1\n', b'version = 3\n'])
    kept = re.sub(rb'(?m)^(?:version|scale) = .*\n', b'', data)
    return dice.one_of([version + scale + kept, version + scale + kept, scale + version + kept, version + kept, scale + data])


def nearby_number(data, dice):
    matches = list(re.finditer(rb'[0-9]{1,15}', data))
    if not matches:
        return data
    match = dice.one_of(matches)
    number = max(0, int(match.group()) + dice.one_of([-2, -1, 1, 2]))
    return data[:match.start()] + str(number).encode() + data[match.end():]


def quote_field(data, dice):
    fields = list(re.finditer(rb'[^,\n]+', data))
    if not fields:
        return data
    field = dice.one_of(fields)
    left, right = dice.one_of([(b'"', b'"'), (b'"', b''), (b'', b'"'), (b'"', b'""'), (b'"', b'\n"'), (b"'", b"'"), (b'"', b'"x')])
    return data[:field.start()] + left + field.group() + right + data[field.end():]


def other_commas(data, dice):
    return replaced(rb',', [b'', b',,', b';', b', ', b'\t', b'","', b'\n'])(data, dice)


def other_line_ends(data, dice):
    return data.replace(b'\n', dice.one_of([b'\r\n', b'\r', b'\n\n', b'\n\r', b'\r\r\n', b'']))


def other_line_end(data, dice):
    return replaced(rb'\n', [b'\r\n', b'\r', b'', b' ', b'\n\n', b'\0', b'\xe2\x80\xa8'])(data, dice)


def with_mark(data, dice):
    return dice.one_of([MARK + data, MARK + MARK + data, b'\n' + MARK + data, MARK[:2] + data, b'\xff\xfe' + data])


def without_end(data, dice):
    return data.rstrip(b'\n')


def with_end(data, dice):
    return data + dice.one_of([b'\n', b'\n\n\n', b'\r\n', b'\0', b',', b'"', b'\n"', b'#', b'\x1a']) * (1 + dice.below(2))


def empty(data, dice):
    return dice.one_of([b'', b'\n', b'\r\n', MARK, b'\0' * 100, b',' * 100, b'"' * 101, b'[' * 100, b'{' * 100, b'\xff' * 100])


def upper(data, dice):
    return dice.one_of([data.upper(), data.swapcase(), data.title()])


def wide(data, dice):
    return dice.one_of([data.decode('latin-1').encode('utf-16'), data.decode('latin-1').encode('utf-16-le')])


# Those that leave most of a file as it was stand several times.
CHANGES = 3 * [
    flip, put_byte, take_bytes, other_byte, drop_record, double_record, swap_records, other_rows, other_rows, other_rows,
    other_number, nearby_number, nearby_number, other_word, other_value, other_value, quote_field, other_commas, other_line_end,
    other_scale,
] + [
    cut, cut_front, repeat_record, empty_record, drop_records, double_file, other_line_ends, with_mark, without_end, with_end,
    empty, upper, wide,
]


def spoilt(data, dice):
    """The bytes after one to four changes, mostly one."""
    for _ in range(dice.one_of([1, 1, 1, 2, 2, 3, 4])):
        data = dice.one_of(CHANGES)(data, dice)
    return data


def cases(count, dice, files):
    """The command, the bytes of its files and its words of each case: files cut at each place, then spoilt ones."""
    cuts = [
        (command, [files[other][:place] if other == name else files[other] for other in names], words)
        for command, names, words in EXAMPLES for name in names for place in range(len(files[name]))]
    # At most a third of the cases, spread over all places.
    cuts = cuts[::max(1, -(-len(cuts) * 3 // count))]
    yield from cuts
    # Two files leave more to spoil than one.
    examples = EXAMPLES + [example for example in EXAMPLES if len(example[1]) == 2]
    for number in range(count - len(cuts)):
        command, names, words = examples[number % len(examples)]
        contents = [files[name] for name in names]
        if words and dice.below(8) == 0:
            which = dice.below(len(words))
            words = words[:which] + [dice.one_of(LIMITS).decode()] + words[which + 1:]
        else:
            # The last file mostly.
            which = len(contents) - 1 if dice.below(4) else 0
            contents[which] = spoilt(contents[which], dice)
            if dice.below(8) == 0:
                contents[0] = spoilt(contents[0], dice)
        yield command, contents, words


# ---- How cases are run ----

def limit(size=BYTES):
    resource.setrlimit(resource.RLIMIT_AS, (size, size))
    resource.setrlimit(resource.RLIMIT_CPU, (SECONDS, SECONDS))
    resource.setrlimit(resource.RLIMIT_CORE, (0, 0))


def outcome(runner, command, contents, words):
    """The form of a case, its status, and what is wrong with its answer, or None."""
    form = 'judge by a scale' if command == 'judge' and words else command
    first = runner.run(command, contents, words)
    second = runner.run(command, contents, words)
    status, text, errors = first
    fault = fault_of(form, status, text, errors)
    is_live = (command, status, second[0]) == ('live', 0, 0)
    if fault is None and first != second and not is_live:
        fault = 'another answer at the second run'
    if fault is None and command in ('run', 'migrate', 'live') and status == 0:
        for written in {text, second[1]}:
            judged = runner.run('judge', [contents[0], written], [])
            if judged != (0, LEGAL.encode(), b''):
                fault = f'its own trace is judged {judged}'
    return form, status, fault


def main(words):
    program, count, seed = program_count_seed(words, 3000)
    files = {}
    for _, names, _ in EXAMPLES:
        for name in names:
            with open(name, 'rb') as file:
                files[name] = file.read()
    one = Runner(program, limit)
    several = Runner(program, lambda: limit(BYTES_OF_SEVERAL))
    answers = {form: {} for form in FORMS}
    failed = 0
    for number, (command, contents, words) in enumerate(cases(count, Dice(seed), files), 1):
        form, status, fault = outcome(several if command == 'runall' else one, command, contents, words)
        answers[form][status] = answers[form].get(status, 0) + 1
        if fault is not None:
            failed += 1
            print(f'case {number}, {keep(number, command, contents, words)}: {fault}')
    tell(answers)
    print(f'mutate: seed {seed}, {count} cases, {one.runs + several.runs} runs, {failed} failed')
    return 1 if failed else 0


if __name__ == '__main__':
    ends(main, __doc__)
