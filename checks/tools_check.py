"""Tests of the scripts that users call, with values worked out by hand: what explain.py says fits, the divisors of divisors.py, the
jobs of jobs.py, what svg.py draws, the traces of record/sched.py, how files are read, which case night.py keeps, what costs.py finds
wrong with a page, and what wrong_bodies.py takes the prover's words for.

usage: tools_check.py
"""

import contextlib
import io
import os
import pathlib
import sys
import tempfile
import unittest

sys.path.insert(0, str(pathlib.Path(__file__).resolve().parent.parent / 'tools' / 'record'))
import with_tools
import costs
import divisors
import explain
import events as recorded
import jobs
import night
import reading
import rules
import sched
import svg
import walk
import wrong_bodies
from cases import Dice
from rules import DONE, HIGH, IDLE, KEPT, LOW, MORE, OVER, STOP, Job, Run, Scale, Task, TaskSet
from usage import WrongWords, ends

CTL, LOG = Task('ctl', HIGH, 10, 2, 6), Task('log', LOW, 10, 5, 5)
CONTROL = [CTL, LOG]


class Explanations(unittest.TestCase):
    """The lines after the verdict. The tasks are ctl and log, and the rule is virtual 2/5."""

    def lines(self, *records):
        text = ['event,tick,task,job,how', *records]
        status, lines = explain.explain(CONTROL, rules.published_rule(CONTROL), *reading.trace_in(CONTROL, text))
        self.assertEqual(status, 6)
        return lines

    def test_a_release_at_its_boundary_fits(self):
        idle = [f'idle,{tick},,,' for tick in range(1, 10)]
        lines = self.lines('release,0,ctl,1,kept', 'tick,0,ctl,1,done', *idle, 'release,10,ctl,3,kept')
        self.assertEqual(lines, [
            'illegal row 12 wrong_count', 'line 13: release,10,ctl,3,kept',
            "wrong_count: its number is not one more than its task's releases so far", 'before it: 10 ticks, mode low, rule virtual 2/5',
            'pending: no job', 'fits here:', '  release,10,ctl,2,kept', '  idle,10,,,'])

    def test_a_release_before_its_boundary_does_not_fit(self):
        lines = self.lines('release,0,log,1,kept', 'tick,0,log,1,done', 'release,1,log,2,kept')
        self.assertEqual(lines[0], 'illegal row 3 too_soon')
        self.assertEqual(lines[-2:], ['  log may be released again from 10 on', '  idle,1,,,'])

    def test_a_record_that_is_none_comes_before_the_verdict(self):
        with self.assertRaises(reading.Refusal) as refused:
            self.lines('release,0,ctl,2,kept', 'idle,0,,', 'idle,0,,,')
        self.assertEqual((refused.exception.status, refused.exception.line), (5, 'trace line 3: not five fields'))


class Rules(unittest.TestCase):
    """The test at its bounds: with the loads of ctl and log the scales from 2/5 to 4/5 hold."""

    def test_loads(self):
        self.assertEqual([str(load) for load in rules.loads(CONTROL)], ['1/2', '1/5', '3/5'])

    def test_scales_that_hold(self):
        for scale, holds in {(2, 5): True, (4, 5): True, (399, 1000): False, (801, 1000): False, (1, 1): False}.items():
            self.assertEqual(rules.is_held(CONTROL, Scale(*scale)), holds, scale)
            rule = rules.rule_of(TaskSet(CONTROL, Scale(*scale)))
            self.assertEqual(rule, rules.virtual(*scale) if holds else rules.virtual(2, 5))

    def test_a_hyperperiod_past_the_range(self):
        low = [Task(name, LOW, period, 1, 1) for name, period in (('a', 2 ** 30), ('b', 3 ** 18), ('c', 4), ('d', 5))]
        self.assertIsNone(rules.first_out_of_range(low[:3]))  # 2^30 * 3^18 is less than 2^59
        self.assertEqual(rules.first_out_of_range(low), 4)  # and five times that more than 2^60

    def test_first_of_equal_keys_is_the_lowest_task(self):
        through = walk.Walk([LOG, CTL._replace(level=LOW)], rules.PLAIN)
        for task in (2, 1):
            through.go_past(Run(KEPT, 0, Job(task, 1)), 2)
        self.assertEqual(through.first(), Job(1, 1))

    def test_keys_of_high_mode(self):
        # By 2/5 ctl's first key is 4, before log's 10; after an overrun it is 10, and log is discarded.
        through = walk.Walk(CONTROL, rules.virtual(2, 5))
        for task in (2, 1):
            through.go_past(Run(KEPT, 0, Job(task, 1)), 2)
        self.assertEqual((through.first(), through.least()), (Job(1, 1), 5 * 4))
        through.go_past(Run(MORE, 0, Job(1, 1)), 3)
        through.go_past(Run(OVER, 1, Job(1, 1)), 4)
        self.assertEqual((through.first(), through.least(), list(through.waiting)), (Job(1, 1), 5 * 10, [Job(1, 1)]))


class Divisors(unittest.TestCase):
    def test_primes_above_100(self):
        self.assertEqual(divisors.divisors(101 * 103), [1, 101, 103, 10403])
        self.assertEqual(divisors.divisors(997), [1, 997])

    def test_a_prime_above_1000(self):
        with self.assertRaises(reading.Refusal):
            divisors.divisors(2 * 1009)

    def test_powers(self):
        self.assertEqual(divisors.divisors(12), [1, 2, 3, 4, 6, 12])
        self.assertEqual([divisors.rounded_down(period, [1, 2, 3, 4, 6, 12]) for period in (1, 5, 6, 100)], [1, 4, 6, 12])


class Jobs(unittest.TestCase):
    def test_each_job_takes_one_word(self):
        words = iter([5, 6, 7, 8])
        task = Task('a', HIGH, 10, 4, 9)
        # 1 + 5 % 4, then an overrun, which takes the word 6, then 1 + 7 % 4.
        self.assertEqual([jobs.need(task, count, 2, words) for count in (1, 2, 3)], [2, 9, 4])
        self.assertEqual(next(words), 8)

    def test_no_overruns(self):
        self.assertEqual(jobs.need(Task('a', HIGH, 10, 4, 9), 2, 0, iter([7])), 4)
        self.assertEqual(jobs.need(Task('a', LOW, 10, 4, 4), 2, 2, iter([7])), 4)

    def test_no_release_at_the_end(self):
        one = Task('a', LOW, 10, 1, 1)
        self.assertEqual(jobs.work_lines([one], 20, 1, 0), ['task,release,need', 'a,0,1', 'a,10,1'])
        self.assertEqual(jobs.work_lines([one], 21, 1, 0), ['task,release,need', 'a,0,1', 'a,10,1', 'a,20,1'])

    def test_bytes_are_counted_with_line_ends(self):
        # 18 bytes of the header and 6 of the job.
        most, one = jobs.MOST_BYTES, Task('a', LOW, 10, 1, 1)
        try:
            jobs.MOST_BYTES = 24
            self.assertEqual(len(jobs.work_lines([one], 1, 1, 0)), 2)
            jobs.MOST_BYTES = 23
            with self.assertRaises(reading.Refusal):
                jobs.work_lines([one], 1, 1, 0)
        finally:
            jobs.MOST_BYTES = most


class Pictures(unittest.TestCase):
    """What svg.py draws: the marks of a trace, and those of a window."""

    def test_a_stopped_job_is_not_discarded(self):
        runs = [
            Run(KEPT, 0, Job(2, 1)), Run(MORE, 0, Job(2, 1), 4), Run(STOP, 4, Job(2, 1)), Run(KEPT, 5, Job(1, 1)), Run(MORE, 5, Job(1, 1)),
            Run(OVER, 6, Job(1, 1))]
        self.assertEqual(list(svg.discards(CONTROL, runs)), [])

    def test_a_pending_job_is_discarded(self):
        runs = [Run(KEPT, 0, Job(1, 1)), Run(KEPT, 0, Job(2, 1)), Run(MORE, 0, Job(1, 1)), Run(OVER, 1, Job(1, 1))]
        self.assertEqual(list(svg.discards(CONTROL, runs)), [svg.Mark('discarded', 2, 2, 2, 'log 1, discarded at 2')])

    def test_boxes_that_touch_the_window(self):
        window = svg.Window(3, 5, 0, 0)
        shown = {(0, 3): False, (5, 6): False, (0, 4): True, (4, 9): True, (3, 5): True, (0, 9): True, (3, 3): True, (5, 5): True,
                 (2, 2): False, (6, 6): False}
        for (begin, end), is_shown in shown.items():
            self.assertEqual(window.shows(svg.Mark('low', begin, end)), is_shown, (begin, end))

    def test_numbers_of_the_axis(self):
        def numbers(begin, end):
            return [int(line.split('>')[1].split('<')[0]) for line in svg.axis(svg.Window(begin, end, 0, 0)) if line.startswith('<text')]
        self.assertEqual(numbers(25, 125), [30, 40, 50, 60, 70, 80, 90, 100, 110, 120])
        self.assertEqual(numbers(3, 6), [3, 4, 5, 6])

    def test_high_mode(self):
        runs = [Run(OVER, 1, Job(1, 1)), Run(DONE, 2, Job(1, 1)), Run(IDLE, 3, None, 4), Run(OVER, 7, Job(1, 2))]
        self.assertEqual([mark[1:3] for mark in svg.high_modes(runs, 10)], [(2, 4), (8, 10)])
        self.assertEqual(svg.ticks_of(runs), 8)
        self.assertEqual((svg.ticks_of(runs[:3]), svg.ticks_of([Run(KEPT, 7, Job(1, 1))]), svg.ticks_of([])), (7, 7, 0))

    def test_an_empty_trace(self):
        self.assertEqual(list(svg.marks(CONTROL, [])), [])


class Recordings(unittest.TestCase):
    """Traces of recordings, in ticks of a millisecond, whose events are written `TIME EVENT TASK`, and a run `TIME TASK`."""

    def trace(self, text, tasks=CONTROL, unserved=False):
        lines = ['time,event,task\n']
        for event in text.split(', '):
            time, *rest = event.split(' ')
            rest = [*rest, ''] if rest == ['finish'] else rest if len(rest) == 2 else ['run', *rest]
            lines.append(','.join([time, *rest]) + '\n')
        events = recorded.Events(recorded.csv_events(lines, {task.name for task in tasks}))
        self.recording = sched.Recording(TaskSet(tasks), events, 1_000_000, unserved)
        return list(rules.trace_lines(tasks, self.recording.runs()))[1:]

    def test_two_overruns_with_an_idle_tick_between(self):
        rows = self.trace('0 release ctl, 0 ctl, 2900 end ctl, 2900 ., 10000 release ctl, 10000 ctl, 12500 end ctl, 12501 ., 14000 finish')
        self.assertEqual(rows, [
            'release,0,,ctl,1,kept', 'tick,0,1,ctl,1,more', 'tick,1,1,ctl,1,over', 'tick,2,1,ctl,1,done', 'idle,3,7,,,',
            'release,10,,ctl,2,kept', 'tick,10,1,ctl,2,more', 'tick,11,1,ctl,2,over', 'tick,12,1,ctl,2,done', 'idle,13,1,,,'])

    def test_no_second_overrun_in_high_mode(self):
        # fix is high too, with budgets 1 and 2: it does not overrun, since the mode is high already.
        tasks = [CTL, LOG._replace(low=4, high=4), Task('fix', HIGH, 20, 1, 2)]
        rows = self.trace('0 release ctl, 0 ctl, 2000 release fix, 2900 end ctl, 3000 fix, 4900 end fix, 5000 ., 6000 finish', tasks)
        self.assertEqual(rows[1:6], ['tick,0,1,ctl,1,more', 'tick,1,1,ctl,1,over', 'release,2,,fix,1,kept', 'tick,2,1,ctl,1,done',
                                     'tick,3,1,fix,1,more'])
        self.assertEqual(rows[6:], ['tick,4,1,fix,1,done', 'idle,5,1,,,'])

    def test_a_job_of_one_tick(self):
        rows = self.trace('0 release log, 0 log, 900 end log, 950 ., 2000 finish')
        self.assertEqual(rows, ['release,0,,log,1,kept', 'tick,0,1,log,1,done', 'idle,1,1,,,'])

    def test_a_job_that_is_stopped(self):
        rows = self.trace('0 release log, 0 log, 7000 finish')
        # Its budget of 5 is had with tick 4; what comes after is more.
        self.assertEqual(rows, ['release,0,,log,1,kept', 'tick,0,4,log,1,more', 'tick,4,1,log,1,stop', 'tick,5,2,log,1,more'])

    def test_a_release_within_a_stretch_of_ticks(self):
        rows = self.trace('0 release log, 0 log, 1400 release ctl, 4000 ctl, 5000 ., 6000 finish')
        self.assertEqual(rows, ['release,0,,log,1,kept', 'tick,0,1,log,1,more', 'release,1,,ctl,1,kept', 'tick,1,3,log,1,more',
                                'tick,4,1,ctl,1,more', 'idle,5,1,,,'])
        self.assertEqual(self.recording.moved(), (
            'a tick is 1000 us, of one 0 us lost at most; moved: 1 of 3 events, by 400 us at most, the first in line 4; '
            'moved back: 0 of 0 ends'))

    def test_shares_of_a_tick(self):
        # ctl has 300 us of tick 0, log 400 and overhead 300; ctl has 600 us of tick 1.
        self.trace('0 release ctl, 0 release log, 0 ctl, 300 log, 700 -, 1000 ctl, 1600 log, 2000 -, 4000 ., 5000 finish')
        self.assertEqual(list(self.recording.owners), [2, 1, 0, 0, 0])
        self.assertEqual([lost // 1000 for lost in self.recording.lost], [600, 400, 1000, 1000, 0])

    def test_a_tick_of_which_overhead_has_most(self):
        # ctl has 100 us of tick 0, log 200 and overhead 700.
        rows = self.trace('0 release log, 0 release ctl, 0 ctl, 100 log, 300 -, 1000 ctl, 2000 finish')
        self.assertEqual(rows[2:], ['tick,0,1,log,1,more', 'tick,1,1,ctl,1,more'])
        self.assertEqual([lost // 1000 for lost in self.recording.lost], [800, 0])

    def test_an_end_goes_back_to_its_jobs_last_tick(self):
        # log ends 100 us into tick 2, of which ctl has the rest.
        rows = self.trace('0 release log, 0 log, 2000 release ctl, 2100 end log, 2100 ctl, 2900 end ctl, 3000 ., 4000 finish')
        self.assertEqual(rows, ['release,0,,log,1,kept', 'tick,0,1,log,1,more', 'tick,1,1,log,1,done', 'release,2,,ctl,1,kept',
                                'tick,2,1,ctl,1,done', 'idle,3,1,,,'])
        self.assertTrue(self.recording.moved().endswith('moved back: 1 of 2 ends, by 100 us at most, the first in line 5'))

    def test_what_is_refused(self):
        refused = {
            '0 log, 0 release ctl, 1000 ctl, 2000 finish': 'tick 0: log runs before its first release',
            '0 release log, 0 log, 900 end log, 950 end log, 2000 finish': 'line 5: log ends and has no tick of its own since its release',
            '0 release log, 0 ., 1000 end log, 2000 log, 3000 finish': 'line 4: log ends and has no tick of its own since its release',
            '0 release log, 0 release ctl, 0 ctl, 1000 finish': 'line 2: log is released and has no tick, which --unserved takes',
            '0 release log, 1500 log, 3000 finish': 'tick 0: no thread is recorded on this processor',
            '0 release log, 2000 finish': 'tick 0: no thread is recorded on this processor'}
        for text, line in refused.items():
            with self.assertRaises(recorded.Refused, msg=text) as found:
                self.trace(text)
            self.assertEqual(str(found.exception), line)


class Reading(unittest.TestCase):
    def setUp(self):
        folder = tempfile.TemporaryDirectory()
        self.addCleanup(folder.cleanup)
        self.name = os.path.join(folder.name, 'file')

    def test_a_file_that_grows_while_it_is_read(self):
        pathlib.Path(self.name).write_bytes(b'12345')
        with io.BufferedReader(reading.BoundedFile(self.name, 10)) as file:
            self.assertEqual(file.read(11), b'12345')
            pathlib.Path(self.name).write_bytes(b'1234567890x')
            with self.assertRaises(OSError) as found:
                file.read(11)
        self.assertEqual((found.exception.strerror, found.exception.filename), ('longer than 10 bytes', self.name))

    def test_as_many_bytes_as_may_be(self):
        pathlib.Path(self.name).write_bytes(b'1234567890')
        self.assertEqual(reading.bytes_in(self.name, 10), b'1234567890')
        with self.assertRaises(OSError):
            reading.bytes_in(self.name, 9)

    def test_a_pipe_that_is_open_already(self):
        ours, theirs = os.pipe()
        os.write(theirs, b'event')
        os.close(theirs)
        self.assertEqual(reading.bytes_in(f'/dev/fd/{ours}', 10), b'event')
        again = reading.open_at_once(f'/dev/fd/{ours}', os.O_RDONLY)
        self.assertTrue(os.get_blocking(again))
        os.close(again)
        os.close(ours)

    def test_records_as_long_as_may_be(self):
        # With its quotes, its comma and its line end the record has 131,072 characters.
        lines = ['"' + 'x' * 131_068 + '",\n', 'a\n', '\n', 'b,c']
        self.assertEqual(list(reading.records_in(lines)), [(1, ['x' * 131_068, '']), (2, ['a']), (4, ['b', 'c'])])
        with self.assertRaises(reading.RecordTooLong):
            list(reading.records_in(['"' + 'x' * 131_069 + '",\n']))

    def test_depth(self):
        for text, is_deep in {
                '[' * 80 + ']' * 80: False, '[' * 81 + ']' * 81: True, '[]' * 100: False, 'a.' * 80 + 'a': True, 'a.' * 79 + 'a': False,
                '"a" . ' * 80 + 'a': True, '# ' + 'a.' * 100: False, '"' + 'a.' * 100 + '"': False, "'" + '[' * 100 + "'": False,
                '"""\n' + 'a.' * 100 + '\n"""': False, '"\\"' + 'a.' * 100 + '"': False}.items():
            self.assertEqual(reading.is_too_deep(text), is_deep, text[:40])


class Costs(unittest.TestCase):
    """A page whose three rows are of three commands, and the memory that their inputs take."""

    PAGE = ('# Words\n\n| `none` | before | 1 s | 9 MiB | |\n\n## Time and memory\n\n'
            '| command | input | time | memory | |\n|---|---|---|---|---|\n| `check`, `stretch` | long | 0.2 s | 20 MiB | |\n'
            '| `judge` | late jobs | 1 s | 100 MiB | 0.74 |\n| `judge` | few | 0.1 s | 10 MiB | |\n\n'
            '## The text\n\n| `none` | x | y | 1 MiB |\n')
    ROWS = [costs.Row('check', 'long', 20), costs.Row('stretch', 'long', 20), costs.Row('judge', 'late jobs', 100),
            costs.Row('judge', 'few', 10)]
    FOUND = {('check', 'long'): 20.0, ('stretch', 'long'): 22.5, ('judge', 'late jobs'): 69.5, ('judge', 'few'): 11.5,
             ('judge', 'others'): 110.5}

    def faults(self, **changed):
        found = {**self.FOUND, **{tuple(key.split('__')): memory for key, memory in changed.items()}}
        return list(costs.faults_of(self.ROWS, {key: memory for key, memory in found.items() if memory is not None}))

    def test_rows_are_those_of_the_table(self):
        self.assertEqual(list(costs.rows_in(self.PAGE)), self.ROWS)

    def test_rows_that_name_no_memory(self):
        page = '\n## Time and memory\n\n| `check` | a |\n| `judge` | late jobs | 1 s | some MiB | |\n'
        self.assertEqual(list(costs.rows_in(page)), [costs.Row('check', 'a', 0), costs.Row('judge', 'late jobs', 0)])

    def test_a_tenth_more_and_seven_tenths_are_right(self):
        self.assertEqual(self.faults(), [])

    def test_more_and_less(self):
        self.assertEqual(self.faults(stretch__long=22.6), ['stretch, long: takes 22.6 MiB, and the page says 20'])
        self.assertEqual(self.faults(check__long=13.4), ['check, long: takes only 13.4 MiB, and the page says 20'])

    def test_a_row_without_an_input(self):
        self.assertEqual(self.faults(check__long=None), ['check, long: bounds.py has no such input'])

    def test_inputs_without_a_row(self):
        self.assertEqual(self.faults(judge__others=110.6), ['judge, others: takes 110.6 MiB, and the page has no row of more than 100 MiB'])
        self.assertEqual(self.faults(run__long=1.0), ['run: the page has no row of it'])

    def test_a_page_without_rows(self):
        self.assertEqual(list(costs.faults_of([], {})), ['the page has no rows'])


class WrongProgram:
    """A runner whose program answers each call by the number of bytes of its files, so that each text is another one."""

    def run(self, command, contents, words):
        return 0, str(sum(map(len, contents))).encode(), b''


class Nights(unittest.TestCase):
    def test_what_is_kept_is_the_smaller_case(self):
        for kind in (night.Compared(WrongProgram()), night.Documents(WrongProgram())):
            with self.assertRaises(night.Fault) as found:
                kind.one(Dice(1))
            length = sum(map(len, found.exception.call.contents))
            self.assertTrue(str(found.exception).startswith(f"status 0, b'{length}'"), (kind.name, length, str(found.exception)))


class WrongBodies(unittest.TestCase):
    """What came of an edit, by what the prover says of it."""

    def test_a_refusal_counts_as_one_only_where_no_reason_that_shows_little_is_said(self):
        said = {
            'refused, as it must be (only because a proof file names what the edit took away): count': wrong_bodies.Result.BY_NAME,
            'refused, as it must be (only by a limit of the prover, which gave no verdict): steps': wrong_bodies.Result.BY_LIMIT,
            'refused, as it must be: the goal does not follow': wrong_bodies.Result.REFUSED,
            'refused, as it must be': wrong_bodies.Result.REFUSED,
            'NOT REFUSED: the crate is still proved with this edit': wrong_bodies.Result.ACCEPTED,
            'BAD EDIT: the prover cannot read the edited text': wrong_bodies.Result.BAD,
            'NOT TRIED: no memory': wrong_bodies.Result.NOT_TRIED,
            'something else': wrong_bodies.Result.NO_WORD,
        }
        self.assertEqual({words: wrong_bodies.result_of(words) for words in said}, said)


def main(words):
    if words:
        raise WrongWords
    text = io.StringIO()
    with contextlib.redirect_stderr(text):
        result = unittest.TextTestRunner(stream=text).run(unittest.defaultTestLoader.loadTestsFromModule(sys.modules['__main__']))
    faults = len(result.failures) + len(result.errors)
    print((text.getvalue() if faults else '') + f'tools: {result.testsRun} tests, {faults} failed')
    return 1 if faults else 0


if __name__ == '__main__':
    ends(main, __doc__)
