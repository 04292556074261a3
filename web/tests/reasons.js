// Tries the explanation of illegal rows on traces that were worked out by hand: for each word of a verdict its facts in words.
import { recordsIn } from '../src/csv.js';
import { movedWords, rowWords, sentencesOf } from '../src/sentences.js';
import { reasonOf } from '../src/reasons.js';
import { ruleOf, virtualSpan } from '../src/rule.js';
import { timelineOf } from '../src/timeline.js';
import { ends, equals } from './expect.js';

// Under x = 2/5 the virtual deadline of ctl is 4 ticks after its release.
const TASKS = [{ name: 'ctl', level: 'high', period: 10, low: 2, high: 6 }, { name: 'log', level: 'low', period: 10, low: 5 }];
const VIRTUAL = ruleOf([], 'tasks 2\nU_LL 1/2\nU_HL 1/5\nU_HH 3/5\nrule virtual\nx 2/5');
const PLAIN = ruleOf([], 'tasks 2\nU_LL 1/5\nU_HL 1/5\nU_HH 3/5\nrule plain');
const BOTH = 'release,0,ctl,1,kept\nrelease,0,log,1,kept\n';
const OVERRUN = `${BOTH}tick,0,ctl,1,more\ntick,1,ctl,1,over\n`;

function faultOf(text, row, why, rule = VIRTUAL, tasks = TASKS) {
    return timelineOf(tasks, recordsIn(text), row, (before, fields) => reasonOf(before, rule, why, fields)).fault;
}

// What is said of the last row of these records of version 1.
function said(records, why, rule = VIRTUAL, tasks = TASKS) {
    return sentencesOf(faultOf(`event,tick,task,job,how\n${records}`, records.split('\n').length - (records.endsWith('\n') ? 1 : 0), why, rule, tasks).reason);
}

equals('rules', [VIRTUAL.name, VIRTUAL.scale.toString(), PLAIN.name, ruleOf(['2', '6'], '').scale.toString()], ['virtual', '2/5', 'plain', '1/3']);
equals('how long after a release a virtual deadline is', [VIRTUAL, ruleOf(['1', '3'], ''), PLAIN].flatMap((rule) => TASKS.map((task) => virtualSpan(rule, task)?.toString() ?? null)),
    ['4/1', null, '10/3', null, null, null]);
equals('of a task without a period', [undefined, 'ten', 2.5].map((period) => virtualSpan(VIRTUAL, { level: 'high', period })), [null, null, null]);

// ---- Releases ----

equals('too soon', said(`${BOTH}idle,0,,,\nrelease,1,log,2,kept`, 'too_soon'), ['log was released at 0 and has the period 10, so its next release is at 10 or later.']);
equals('a wrong count', said(`${BOTH}release,0,log,3,kept`, 'wrong_count'), ['log has been released 1 time so far, so the next release is job 2.']);
equals('a first count', said('release,0,log,2,kept', 'wrong_count'), ['log has been released 0 times so far, so the next release is job 1.']);
equals('dropped in low mode', said('release,0,log,1,dropped', 'wrong_kept'), ['The mode is low, so the release of log is kept.']);
equals('dropped under plain EDF', said('release,0,log,1,dropped', 'wrong_kept', PLAIN), ['Under plain EDF each release is kept.']);
equals('a high task that is dropped', said('release,0,ctl,1,dropped', 'wrong_kept'), ['ctl is a high task, so each of its releases is kept.']);
equals('kept in high mode', said('release,0,ctl,1,kept\ntick,0,ctl,1,more\ntick,1,ctl,1,over\nrelease,2,log,1,kept', 'wrong_kept'),
    ['log is a low task and the mode is high, so the release is dropped.']);
equals('low mode again after an idle tick', said('release,0,ctl,1,kept\ntick,0,ctl,1,more\ntick,1,ctl,1,over\ntick,2,ctl,1,done\nidle,3,,,\nrelease,4,log,1,dropped', 'wrong_kept'),
    ['The mode is low, so the release of log is kept.']);

// ---- Jobs that are not pending ----

equals('never released', said('tick,0,ctl,1,more', 'not_pending'), ['Here ctl 1 was never released: its task has had 0 releases so far.']);
equals('not released yet', said(`${BOTH}tick,0,log,2,more`, 'not_pending'), ['Here log 2 was never released: its task has had 1 release so far.']);
equals('dropped', said('release,0,ctl,1,kept\ntick,0,ctl,1,more\ntick,1,ctl,1,over\nrelease,2,log,1,dropped\ntick,2,log,1,more', 'not_pending'),
    ['Here the release of log 1 at 2 was dropped, since the mode was high.']);
equals('discarded', said(`${OVERRUN}tick,2,log,1,more`, 'not_pending'), ['Here log 1 was discarded at 2 by an overrun.']);
equals('done', said(`${BOTH}tick,0,ctl,1,more\ntick,1,ctl,1,done\ntick,2,ctl,1,more`, 'not_pending'), ['Here ctl 1 ended at 2: it was done with tick 1.']);
equals('done, though it overran before', said(`${OVERRUN}tick,2,ctl,1,done\ntick,3,ctl,1,more`, 'not_pending'), ['Here ctl 1 ended at 3: it was done with tick 2.']);
equals('stopped', said(`${OVERRUN}tick,2,ctl,1,more\ntick,3,ctl,1,more\ntick,4,ctl,1,more\ntick,5,ctl,1,stop\ntick,6,ctl,1,done`, 'not_pending'),
    ['Here ctl 1 ended at 6: it was stopped after tick 5, when its budget was used up.']);
equals('the second of two jobs', said('release,0,log,1,kept\ntick,0,log,1,done\nidle,1,,,\nrelease,10,log,2,kept\ntick,2,log,1,more', 'not_pending'),
    ['Here log 1 ended at 1: it was done with tick 0.']);

// ---- Keys ----

equals('a virtual deadline before a deadline', said(`${BOTH}tick,0,log,1,more`, 'not_least'),
    ['ctl 1 comes first, in low mode: the virtual deadline of ctl 1 is 4, and the deadline of log 1 is 10.']);
equals('under plain EDF', said('release,0,log,1,kept\nidle,0,,,\nrelease,1,ctl,1,kept\ntick,1,ctl,1,more', 'not_least', PLAIN),
    ['log 1 comes first: the deadline of log 1 is 10, and the deadline of ctl 1 is 11.']);
const PAIR = [{ ...TASKS[0], name: 'a' }, { ...TASKS[0], name: 'b', period: 20 }];
equals('real deadlines in high mode', said('release,0,a,1,kept\nrelease,0,b,1,kept\ntick,0,a,1,more\ntick,1,a,1,over\ntick,2,b,1,more', 'not_least', VIRTUAL, PAIR),
    ['a 1 comes first, in high mode: the deadline of a 1 is 10, and the deadline of b 1 is 20.']);
equals('a key between ticks', said(`${BOTH}tick,0,log,1,more`, 'not_least', ruleOf(['1', '3'], '')),
    ['ctl 1 comes first, in low mode: the virtual deadline of ctl 1 is 10/3 (about 3.33), and the deadline of log 1 is 10.']);
const ALIKE = [{ ...TASKS[1], name: 'late', period: 30 }, { ...TASKS[1], name: 'one' }, { ...TASKS[1], name: 'two' }];
equals('the first task of equal keys', said('release,0,two,1,kept\nrelease,0,one,1,kept\nrelease,0,late,1,kept\ntick,0,late,1,more', 'not_least', PLAIN, ALIKE),
    ['one 1 comes first: the deadline of one 1 is 10, and the deadline of late 1 is 30.']);

// ---- Last words and idle ticks ----

const SO = (words) => `So the last word is ${words} if the job is done with this tick.`;
equals('over', said(`${BOTH}tick,0,ctl,1,more\ntick,1,ctl,1,more`, 'wrong_how'),
    ['This is tick 2 of ctl 1, which has the budgets 2 and 6: with this tick its low budget is used up, in low mode.', SO('over, or done')]);
equals('more', said(`${BOTH}tick,0,ctl,1,over`, 'wrong_how'), ['This is tick 1 of ctl 1, which has the budgets 2 and 6: more budget is left.', SO('more, or done')]);
equals('more in high mode', said(`${OVERRUN}tick,2,ctl,1,over`, 'wrong_how'),
    ['This is tick 3 of ctl 1, which has the budgets 2 and 6: more budget is left, and in high mode no job overruns.', SO('more, or done')]);
equals('the end of the low budget in high mode', said(`release,0,a,1,kept\nrelease,0,b,1,kept\ntick,0,a,1,more\ntick,1,a,1,over\ntick,2,a,1,done\ntick,3,b,1,more
tick,4,b,1,over`, 'wrong_how', VIRTUAL, PAIR), ['This is tick 2 of b 1, which has the budgets 2 and 6: more budget is left, and in high mode no job overruns.', SO('more, or done')]);
equals('no overrun under plain EDF', said('release,0,ctl,1,kept\ntick,0,ctl,1,more\ntick,1,ctl,1,over', 'wrong_how', PLAIN),
    ['This is tick 2 of ctl 1, which has the budgets 2 and 6: more budget is left.', SO('more, or done')]);
equals('stop', said(`release,0,log,1,kept\n${[0, 1, 2, 3, 4].map((tick) => `tick,${tick},log,1,more`).join('\n')}`, 'wrong_how'),
    ['This is tick 5 of log 1, which has the budget 5: with this tick its last budget is used up.', SO('stop, or done')]);
equals('stop, where both budgets are one', said('release,0,x,1,kept\ntick,0,x,1,over', 'wrong_how', VIRTUAL, [{ name: 'x', level: 'high', period: 9, low: 1, high: 1 }]),
    ['This is tick 1 of x 1, which has the budgets 1 and 1: with this tick its last budget is used up.', SO('stop, or done')]);
equals('idle', said(`${BOTH}tick,0,ctl,1,more\ntick,1,ctl,1,done\nidle,2,,,`, 'idle_pending'),
    ['log 1 is pending: it was released at 0 and has had 0 ticks, and it comes first. So the tick is not idle.']);
equals('idle, of two', said(`${BOTH}tick,0,ctl,1,more\nidle,1,,,`, 'idle_pending'),
    ['ctl 1 is pending: it was released at 0 and has had 1 tick, and it comes first. So the tick is not idle.']);

// ---- Inside a record of several rows ----

const RUNS = 'event,tick,length,task,job,how\n\nrelease,0,,ctl,1,kept\ntick,0,6,ctl,1,more\n';
const inside = faultOf(RUNS, 3, 'wrong_how');
equals('the tick that uses the low budget up', sentencesOf(inside.reason)[0],
    'This is tick 2 of ctl 1, which has the budgets 2 and 6: with this tick its low budget is used up, in low mode.');
equals('where it is', rowWords(inside, 3), 'Row 3 is in line 4, which stands for the rows 2 to 7: the header in line 1 is not a row.');
equals('where a row is', rowWords(faultOf(`event,tick,task,job,how\n${OVERRUN}tick,2,log,1,more`, 5, 'not_pending'), 5), 'Row 5 is line 6: the header in line 1 is not a row.');
equals('a row of the trace that a recording makes', [rowWords(inside, 3, true), rowWords(faultOf(`event,tick,task,job,how\n${OVERRUN}tick,2,log,1,more`, 5, 'not_pending'), 5, true)],
    ['Row 3 is in line 4 of the trace that the recording makes, which stands for the rows 2 to 7: the header in line 1 is not a row.',
        'Row 5 is line 6 of the trace that the recording makes: the header in line 1 is not a row.']);
equals('lines of the recording itself', movedWords('moved: 3 of 4 events, by 110 us at most, the first in line 5; moved back: 1 of 2 ends, by 9 us at most, the first in line 12'),
    'moved: 3 of 4 events, by 110 us at most, the first in line 5 of the recording; moved back: 1 of 2 ends, by 9 us at most, the first in line 12 of the recording');
equals('a header below an empty line', rowWords(faultOf('\nevent,tick,task,job,how\nidle,0,,,\n', 1, 'idle_pending'), 1), 'Row 1 is line 3: the header in line 2 is not a row.');
equals('a row that is not as the word says', faultOf('event,tick,task,job,how\nidle,0,,,\n', 1, 'idle_pending').reason?.first ?? null, null);
equals('a word that there is not', faultOf('event,tick,task,job,how\nidle,0,,,\n', 1, 'other').reason, null);
ends('reasons');
