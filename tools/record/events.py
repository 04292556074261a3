"""The events of a recording: who has the processor from when on, and what a program marked. They are read from the text of
`trace-cmd report`, or from a CSV file, in the order of their times, up to `finish`.
"""

import array
import re
from typing import NamedTuple

from reading import MOST_IN_RECORD, RecordTooLong, excerpt, lines_of, records_in, text_file

MOST_BYTES = 2 ** 31  # of a recording
MOST_TIME = 2 ** 62  # in nanoseconds; two events that are far apart must not fill the memory

# The processor is in brackets, with or without columns of flags after it; or it is before the flags, as `report -l` writes it.
# A name has at most 64 characters, so that each line is matched in bounded time.
EVENT = re.compile(
    r'^\s*\S.{0,64}?-\d{1,10}\s+(?:\[(\d{1,5})\]\s+(?:\S{4,6}\s+)?|(\d{1,5})[.a-zA-Z]\S{3,5}\s+)'
    r'(\d{1,9}\.\d{1,9}):\s+(\S+):\s*(.*)$')
# The number of the thread that ran before, and name, number and priority of the one that runs next.
SWITCHES = [
    re.compile(r'^.{1,64}:(\d{1,10}) \[-?\d{1,10}\] \S{1,16} ==> (.{1,64}):(\d{1,10}) \[(-?\d{1,10})\]'),
    re.compile(r'^prev_comm=.{0,64} prev_pid=(\d{1,10}) prev_prio=.{0,64} next_comm=(.{1,64}) next_pid=(\d{1,10})'
               r' next_prio=(-?\d{1,10})')]
WAKINGS = [re.compile(r'^(?:comm=)?(.{1,64}) pid=(\d{1,10})'), re.compile(r'^(.{1,64}):(\d{1,10}) \[-?\d{1,10}\]')]
PRINTS = ('print', 'bprint', 'tracing_mark_write')
MARKER = re.compile(r'^(?:\S+:\s+|ip=\S+ buf=)?(?:(release|drop|end) (\S+)|finish)\s*$')
LOST = re.compile(r'^\s*CPU:\d+ \[(LOST .*EVENTS|.*EVENTS DROPPED)\]')
SPEAKS = re.compile(r': (sched_switch|sched_waking|b?print|tracing_mark_write):')
OVERHEAD, IDLENESS, OTHERS, IDLE_THREAD = '-', '.', '*', re.compile(r'^(swapper/\d+|<idle>)$')
FIRST_ORDINARY = 100  # the kernel's least priority that is not a real-time one
RELEASES = ('release', 'drop')
CSV_HEADER, CSV_MARKERS = ['time', 'event', 'task'], (*RELEASES, 'end')


class Refused(Exception):
    """Why a recording makes no trace."""


class Event(NamedTuple):
    """A line of the recording that counts: its number, its time in nanoseconds, and what it says."""
    line: int
    time: int
    word: str  # run, elsewhere, waking, release, drop, end or finish
    name: object  # a task, OVERHEAD, None of idleness, or a Stranger


class Stranger(NamedTuple):
    """A thread that is in no map, or one of a task on another processor, and why it may have no time of a tick."""
    why: str


class Events:
    """The events of a recording. Who has the processor is kept in few bytes, since a recording has millions of switches."""

    def __init__(self, events):
        self.times, self.names = array.array('q'), []  # from when on who has the processor
        self.marks, self.wakings, self.elsewhere, self.finish = [], [], [], None
        last = None
        for event in events:
            if last is not None and event.time < last.time:
                raise Refused(f'line {event.line}: its time is before that of line {last.line}')
            last = event
            self.take(event)

    def take(self, event):
        if event.word == 'run':
            self.times.append(event.time)
            self.names.append(event.name if not isinstance(event.name, Stranger) else stranger_at(event))
        elif event.word == 'finish':
            self.finish = event
        else:
            {'waking': self.wakings, 'elsewhere': self.elsewhere}.get(event.word, self.marks).append(event)

    def releases(self):
        """The markers of releases, dropped ones too, or where there are none the wakings of the tasks' threads."""
        return [mark for mark in self.marks if mark.word in RELEASES] or self.wakings

    def ends(self):
        return [mark for mark in self.marks if mark.word == 'end']


def stranger_at(event):
    """Why the line of an event is refused if its thread has time of a tick."""
    return Stranger(f'line {event.line}: {event.name.why}')


# ---- Reading a report ----

def nanoseconds(text):
    """The time of a text of seconds."""
    seconds, fraction = text.split('.')
    return int(seconds) * 10 ** 9 + int(fraction.ljust(9, '0'))


def owner(threads, name, pid, priority):
    """The task, OVERHEAD or None of idleness that a thread is, or a Stranger."""
    if IDLE_THREAD.match(name):
        return None
    others = [OTHERS] if int(priority) >= FIRST_ORDINARY else []
    for known in [f'{name}-{pid}', name] + others:
        if known in threads:
            return None if threads[known] == IDLENESS else threads[known]
    return Stranger(f'thread {excerpt(name)}-{pid} is in no map')


def first_match(forms, line, event, text):
    for form in forms:
        match = form.match(text)
        if match:
            return match.groups()
    raise Refused(f'line {line}: {event} has a form that is not known')


def refuse_if_it_counts(line, text):
    """Refuses a line that mentions an event but not in a known form, or that says that events were lost."""
    if LOST.search(text):
        raise Refused(f'line {line}: events were lost')
    if SPEAKS.search(text):
        raise Refused(f'line {line}: an event has a form that is not known')


class Switches:
    """The switches of one processor, each to who then has it, and those of other processors to a task."""

    def __init__(self, processor, threads):
        self.processor, self.threads, self.running = processor, threads, None

    def event(self, line, time, processor, text):
        before, name, pid, priority = first_match(SWITCHES, line, 'sched_switch', text)
        who = owner(self.threads, name, pid, priority)
        if processor != self.processor:
            if who in (None, OVERHEAD) or isinstance(who, Stranger):
                return None
            return Event(line, time, 'elsewhere', Stranger(f'{who} runs on processor {processor}'))
        if self.running not in (None, before):
            raise Refused(f'line {line}: thread {before} leaves the processor, which thread {self.running} had')
        self.running = pid
        return Event(line, time, 'run', who)


def event_of(number, match, switches, names):
    """What a line says that counts, or None. Wakings of threads of no task, and markers with other words, say nothing of the
    tasks."""
    time, event, text = nanoseconds(match[3]), match[4], match[5]
    if event == 'sched_switch':
        return switches.event(number, time, int(match[1] or match[2]), text)
    if event == 'sched_waking':
        name, pid = first_match(WAKINGS, number, event, text)
        task = switches.threads.get(f'{name}-{pid}', switches.threads.get(name))
        return Event(number, time, 'waking', task) if task in names else None
    marker = MARKER.match(text) if event in PRINTS else None
    if marker is None:
        return None
    word, task = marker.groups()
    if word is not None and task not in names:
        raise Refused(f'line {number}: marker {word} of {excerpt(task)}, which is no task')
    return Event(number, time, word or 'finish', task)


def report_events(lines, processor, threads, names):
    """The events that count, up to the first that finishes."""
    switches = Switches(processor, threads)
    for number, text in enumerate(lines, 1):
        if len(text) > MOST_IN_RECORD:
            raise Refused(f'line {number}: more than {MOST_IN_RECORD} characters')
        match = EVENT.match(text)
        if not match:
            refuse_if_it_counts(number, text)
            continue
        event = event_of(number, match, switches, names)
        if event is not None:
            yield event
            if event.word == 'finish':
                return


# ---- Reading a CSV file ----

def csv_events(lines, names):
    """The events of the records, up to the first that finishes."""
    records, line = records_in(lines), 0
    try:
        line, header = next(records, (1, None))
        if header != CSV_HEADER:
            raise Refused(f'line 1: the header is not {",".join(CSV_HEADER)}')
        for line, record in records:
            event = event_of_record(line, record, names)
            yield event
            if event.word == 'finish':
                return
    except RecordTooLong:
        raise Refused(f'line {line + 1}: more than {MOST_IN_RECORD} characters') from None


def event_of_record(line, record, names):
    if len(record) != 3:
        raise Refused(f'line {line}: not three fields')
    text, word, task = record
    time = thousandths(text)
    if time is None or time > MOST_TIME:
        raise Refused(f'line {line}: {excerpt(text)} is no time')
    if word == 'finish':
        return Event(line, time, word, None)
    if word == 'run' and task in (OVERHEAD, IDLENESS):
        return Event(line, time, word, None if task == IDLENESS else task)
    if word not in ('run', *CSV_MARKERS):
        raise Refused(f'line {line}: {excerpt(word)} is no event')
    if task not in names:
        raise Refused(f'line {line}: {word} of {excerpt(task)}, which is no task')
    return Event(line, time, word, task)


def thousandths(text):
    """The whole thousandths in a number with or without a decimal point, or None where the text is none or very long."""
    match = re.fullmatch(r'([0-9]{1,20})(?:\.([0-9]{1,20}))?', text)
    return int(match[1]) * 1000 + int((match[2] or '').ljust(3, '0')[:3]) if match else None


# ---- Either of them ----

def thread_map(names, words):
    """The map of threads to tasks, overhead and idleness that the words are."""
    threads = dict(word.rsplit('=', 1) for word in words)
    for thread, task in threads.items():
        if task not in (OVERHEAD, IDLENESS, *names):
            raise Refused(f'{excerpt(thread)}={excerpt(task)}: no task has the name')
    return threads


def events_in(name, names, words):
    """The events of a file: of a report on this processor, or of a CSV file where no processor and map are given."""
    threads = thread_map(names, words[1:])
    with text_file(name, MOST_BYTES) as file:
        if words:
            return Events(report_events(lines_of(file), int(words[0]), threads, names))
        return Events(csv_events(lines_of(file), names))
