"""Turns a recording of one processor into a trace of a task file, and says how far events were moved at most. A recording is the
text of `trace-cmd report`, or a CSV file of one's own.

From the text it reads the events sched_switch and sched_waking, and the user markers `release TASK`, `drop TASK`, `end TASK`
and `finish`, which a program writes to trace_marker. If no marker releases a job, each sched_waking of a task's thread is a
release. A CSV file has the header `time,event,task`, times in microseconds, and the events `run` (from then on the task has
the processor), `release`, `drop`, `end` and `finish`.

Boundary 0 is the first release, and nothing after `finish` counts. A release goes to the nearest boundary, and a tick to the
thread that has most of it. A job's last tick before its end is `done`. What the recorded program knows of budgets and modes is
not in the recording, so `stop`, `over` and the mode come from the budgets of the file. THREAD=- is a thread whose time is
overhead, and THREAD=. one whose time is idleness. In a CSV file, `-` and `.` in place of a task mean the same.

A recording is refused, by the line, if a thread that is in no map has time of a tick, or if a task's thread runs on another
processor. It is also refused if it has no whole tick or more than ten million, or if a task is released and never has a tick.

usage: sched.py [-v] [--unserved] TASKS REPORT TICK CPU THREAD=TASK..
       sched.py [-v] [--unserved] TASKS CSV TICK
       TICK in microseconds; THREAD a name, or name-pid, or * for all others that have no real-time priority; --unserved takes
       a recording in which a task is released and has no tick; the trace goes to standard output, a line on the moves to
       standard error, and with -v before it a line for each event that was moved and each tick that was not one owner's
"""

import array
import bisect
import collections
import pathlib
import re
import sys

sys.path.insert(0, str(pathlib.Path(__file__).resolve().parent.parent))
from events import OVERHEAD, Refused, Stranger, events_in, thousandths
from reading import Refusal, set_in
from rules import DONE, DROPPED, HIGH, IDLE, KEPT, MORE, OVER, PLAIN, STOP, Job, Run, rule_of, trace_lines
from usage import WrongWords, ends

# Lines for each event come only when asked for: among a million of them the last line, on the moves, would not be seen.
UNSERVED, EACH = '--unserved', '-v'
MOST_TICKS = 10_000_000  # nearly three hours in ticks of a millisecond
NO_TASK = 0  # in the place of a task's number
EQUAL = re.compile(rb'(.)\1*+', re.DOTALL)


# ---- Who has the ticks ----

class Ticks:
    """Who has each whole tick of a recording from `start` to `end`, and how much of it that task or idleness did not have."""

    def __init__(self, numbers, events, start, end, tick):
        self.numbers, self.start, self.tick, self.count = numbers, start, tick, (end - start) // tick
        self.owners, self.lost, self.shares = bytearray(), array.array('q'), collections.Counter()
        if self.count <= 0:
            raise Refused(f'no whole tick of {micro(tick)} is recorded on this processor')
        if self.count > MOST_TICKS:
            raise Refused(f'{self.count} ticks of {micro(tick)} are recorded, at most {MOST_TICKS} make a trace')
        for place, (begin, name) in enumerate(zip(events.times, events.names), 1):
            until = min(events.times[place], end) if place < len(events.times) else end
            self.share_out(name, max(begin, start), until)
        for event in events.elsewhere:
            if start <= event.time < end:
                raise Refused(f'line {event.line}: {event.name.why}')
        if len(self.owners) < self.count:
            raise Refused('tick 0: no thread is recorded on this processor')

    def share_out(self, name, begin, until):
        """Gives the time up to `until` to a task, overhead or idleness."""
        while begin < until:
            if isinstance(name, Stranger):
                raise Refused(name.why)
            place, past = divmod(begin - self.start, self.tick)
            if place > len(self.owners):
                raise Refused('tick 0: no thread is recorded on this processor')
            whole = (until - begin) // self.tick
            if past == 0 and whole > 0:
                self.close(name, 0 if name != OVERHEAD else self.tick, whole)
                begin += whole * self.tick
                continue
            last = min(until, begin - past + self.tick)
            self.shares[name] += last - begin
            if last == begin - past + self.tick:
                owner = owner_of(self.shares)
                self.close(owner, self.tick - self.shares[owner], 1)
                self.shares.clear()
            begin = last

    def close(self, owner, lost, count):
        """Ends as many ticks of this owner, of each of which others had this time."""
        self.owners.extend(bytes([self.numbers.get(owner, NO_TASK)]) * count)
        self.lost.extend(array.array('q', [lost]) * count)


def owner_of(shares):
    """Who has a tick: of the tasks and idleness the one with most of it."""
    found = [(time, name or '') for name, time in shares.items() if name != OVERHEAD]
    return (max(found)[1] or None) if found else None


# ---- The trace ----

class Recording:
    def __init__(self, task_set, events, tick, takes_unserved):
        self.tasks, self.rule, self.tick, self.moves = task_set.tasks, rule_of(task_set), tick, []
        self.numbers = {task.name: number for number, task in enumerate(self.tasks, 1)}
        released = events.releases()
        if not released:
            raise Refused('no release is recorded')
        self.start = released[0].time
        ticks = Ticks(self.numbers, events, self.start, self.end_of(events), tick)
        self.owners, self.lost = ticks.owners, ticks.lost
        self.refuse_unserved([] if takes_unserved else released)
        self.releases = collections.defaultdict(list)  # by their boundaries
        for event in released:
            self.releases[self.boundary(event)].append(event)
        self.ends = self.last_ticks(events.ends())
        self.refuse_unreleased()

    # The end of the last whole tick: at `finish`, or before the last switch.
    def end_of(self, events):
        if events.finish is not None:
            return self.start + self.boundary(events.finish) * self.tick
        last = events.times[-1] if events.times else self.start
        return self.start + max(0, last - self.start) // self.tick * self.tick

    # The nearest boundary of an event, whose move is noted.
    def boundary(self, event):
        place = (2 * (event.time - self.start) + self.tick) // (2 * self.tick)
        self.note(event, place)
        return place

    def note(self, event, place):
        self.moves.append((event, place, self.start + place * self.tick - event.time))

    def refuse_unserved(self, released):
        served = set(self.owners)
        for event in released:
            if event.word != 'drop' and self.numbers[event.name] not in served:
                raise Refused(f'line {event.line}: {event.name} is released and has no tick, which {UNSERVED} takes')

    # Refuses the first tick of a task that has had no release.
    def refuse_unreleased(self):
        firsts = {}
        for place in sorted(self.releases):
            for event in self.releases[place]:
                if event.word != 'drop':
                    firsts.setdefault(self.numbers[event.name], place)
        ticks = [(self.owners.find(number), name) for name, number in self.numbers.items()]
        early = [(place, name) for place, name in ticks if 0 <= place < firsts.get(self.numbers[name], place + 1)]
        if early:
            raise Refused('tick {}: {} runs before its first release'.format(*min(early)))

    # The last ticks of the ended jobs of each task, in order; each is one since the job's release.
    def last_ticks(self, ended):
        places, found = collections.defaultdict(list), collections.defaultdict(list)
        for place in sorted(self.releases):
            for event in self.releases[place]:
                places[event.name].append(place)
        for event in ended:
            before = (event.time - self.start) // self.tick
            if before >= len(self.owners):
                continue  # in the last tick, which is not whole
            released = bisect.bisect_right(places[event.name], before)
            first = places[event.name][released - 1] if released else 0
            number = self.numbers[event.name]
            last = self.owners.rfind(number, first, before + 1) if before >= 0 else -1
            if last < 0 or found[number][-1:] == [last]:
                raise Refused(f'line {event.line}: {event.name} ends and has no tick of its own since its release')
            found[number].append(last)
            self.note(event, last + 1)
        return found

    # The runs of the trace. Each stretch of equal ticks is cut at releases, and where a job ends or has had a budget.
    def runs(self):
        jobs = Jobs(self.tasks, self.rule, self.ends)
        boundaries = collections.deque(sorted(place for place in self.releases if place < len(self.owners)))
        for stretch in EQUAL.finditer(self.owners):
            place, number = stretch.start(), self.owners[stretch.start()]
            while place < stretch.end():
                if boundaries and boundaries[0] == place:
                    for event in self.releases[boundaries.popleft()]:
                        yield jobs.release(self.numbers[event.name], event.word == 'drop', place)
                run = jobs.next_run(number, place, min(boundaries[0] if boundaries else place + MOST_TICKS, stretch.end()))
                place += run.length
                yield run

    # A line for each event that was moved, and for each tick that was not one owner's.
    def each_move(self):
        for event, place, by in sorted(self.moves, key=lambda move: move[0].line):
            what = event.word if event.name is None else f'{event.word} {event.name}'
            yield f'line {event.line}: {what} at boundary {place}, moved by {micro(by)}'
        for place, lost in enumerate(self.lost):
            if lost:
                number = self.owners[place]
                yield f'tick {place}: of {self.tasks[number - 1].name if number else "no task"} but for {micro(lost)}'

    # How many events were moved and how far, and how many ends back.
    def moved(self):
        moved = [(event.line, by) for event, _, by in self.moves if by]
        ended = [(event.line, by) for event, _, by in self.moves if event.word == 'end']
        back = [(line, by) for line, by in ended if by < 0]
        return (f'a tick is {micro(self.tick)}, of one {micro(max(self.lost))} lost at most; moved: {len(moved)} of '
                f'{len(self.moves)} events{reach(moved)}; moved back: {len(back)} of {len(ended)} ends{reach(back)}')


class Jobs:
    """The jobs of a recording as it goes on: what each has had, and the mode."""

    def __init__(self, tasks, rule, ends):
        self.tasks, self.ends = tasks, {number: collections.deque(places) for number, places in ends.items()}
        self.switches = rule not in (None, PLAIN)
        self.counts, self.kept, self.used = collections.Counter(), {}, collections.Counter()
        self.high_mode = False

    def release(self, number, is_dropped, place):
        self.counts[number] += 1
        job = Job(number, self.counts[number])
        if not is_dropped:
            self.kept[number] = job
        return Run(DROPPED if is_dropped else KEPT, place, job)

    # The equal ticks of a task or of nobody that begin here, none of them from this boundary on.
    def next_run(self, number, place, until):
        if number == NO_TASK:
            self.high_mode = False
            return Run(IDLE, place, None, until - place)
        job, ends = self.kept[number], self.ends.get(number, ())
        stops = self.kinds_to_come(job, ends[0] - place if ends else None)
        if 0 in stops:
            run = Run(stops[0], place, job)
        else:
            run = Run(MORE, place, job, min([until - place, *stops]))
        self.used[job] += run.length
        if run.kind == DONE:
            ends.popleft()
        self.high_mode = self.high_mode or run.kind == OVER
        return run

    # After how many more ticks of a job comes one of another kind: as recorded, or by the budgets.
    def kinds_to_come(self, job, end):
        task, used = self.tasks[job.task - 1], self.used[job]
        kinds = {task.high - used - 1: STOP} if used < task.high else {}
        if self.switches and not self.high_mode and task.level == HIGH and used < task.low < task.high:
            kinds[task.low - used - 1] = OVER
        if end is not None:
            kinds[end] = DONE
        return kinds


# How far these moves go, and the first line of them.
def reach(moves):
    return f', by {micro(max(abs(by) for _, by in moves))} at most, the first in line {min(moves)[0]}' if moves else ''


def micro(time):
    return f'{time / 1000:.3f}'.rstrip('0').rstrip('.') + ' us'


def main(words):
    options, words = {UNSERVED, EACH}.intersection(words), [word for word in words if word not in (UNSERVED, EACH)]
    if len(words) != 3 and (len(words) < 5 or not re.fullmatch('[0-9]{1,5}', words[3]) or any('=' not in word for word in words[4:])):
        raise WrongWords
    tick = thousandths(words[2])
    if not tick:
        raise WrongWords
    try:
        task_set = set_in(words[0])
        events = events_in(words[1], {task.name for task in task_set.tasks}, words[3:])
        recording = Recording(task_set, events, tick, UNSERVED in options)
    except (Refused, Refusal) as refused:
        print(f'sched: {refused}', file=sys.stderr)
        return 1
    sys.stdout.writelines(f'{line}\n' for line in trace_lines(task_set.tasks, recording.runs()))
    sys.stdout.flush()
    sys.stderr.writelines(f'{line}\n' for line in (recording.each_move() if EACH in options else ()))
    print(recording.moved(), file=sys.stderr)
    return 0


if __name__ == '__main__':
    ends(main, __doc__)
