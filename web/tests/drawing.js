// Tries the timeline and the drawing of a trace without a browser: what is drawn where, of a trace that was worked out by hand.
import { recordsIn } from '../src/csv.js';
import { pictureOf } from '../src/drawing.js';
import { LEGEND } from '../src/legend.js';
import { ruleOf } from '../src/rule.js';
import { PATHS } from '../src/signs.js';
import { timelineOf } from '../src/timeline.js';
import { ends, equals, holds } from './expect.js';

// The schedule of examples/overrun: ctl overruns after its second tick, log is discarded, and tick 6 is idle.
const TASKS = [{ name: 'ctl', level: 'high', period: 10, low: 2, high: 6 }, { name: 'log', level: 'low', period: 10, low: 5 }];
const RUNS = `event,tick,length,task,job,how
release,0,,ctl,1,kept
release,0,,log,1,kept
tick,0,1,ctl,1,more
tick,1,1,ctl,1,over
release,2,,log,2,dropped
tick,2,3,ctl,1,more
tick,5,1,ctl,1,done
idle,6,4,,,
release,10,,log,3,kept
tick,10,2,log,3,more
`;
const ROWS = `event,tick,task,job,how
release,0,ctl,1,kept
release,0,log,1,kept
tick,0,ctl,1,more
tick,1,ctl,1,over
release,2,log,2,dropped
tick,2,ctl,1,more
tick,3,ctl,1,more
tick,4,ctl,1,more
tick,5,ctl,1,done
idle,6,,,
idle,7,,,
idle,8,,,
idle,9,,,
release,10,log,3,kept
tick,10,log,3,more
tick,11,log,3,more
`;
const read = (text, row = 0, tasks = TASKS) => timelineOf(tasks, recordsIn(text), row);
const numbers = (column) => [...column.numbers.slice(0, column.length)];
const all = (columns) => Object.fromEntries(Object.entries(columns).map(([name, column]) => [name, numbers(column)]));

// ---- The timeline ----

const { timeline } = read(RUNS);
equals('slices', all(timeline.slices), { begin: [0, 1, 2, 5, 10], end: [1, 2, 5, 6, 12], lane: [0, 0, 0, 0, 1], job: [1, 1, 1, 1, 3], outcome: [0, 3, 0, 1, 0],
    isBeyond: [0, 0, 1, 1, 0] });
equals('releases of log', all(timeline.lanes[1].releases), { tick: [0, 2, 10], job: [1, 2, 3], isKept: [1, 0, 1], isLate: [0, 0, 0], isInHighMode: [0, 1, 0] });
equals('what is counted', timeline.counts(), { late: 0, dropped: 1, discarded: 1, stopped: 0 });
equals('the discarded job', all(timeline.discards), { tick: [2], lane: [1], job: [1] });
equals('high mode up to the end of the idle tick', all(timeline.modes), { begin: [2], end: [7], isEndedByIdleTick: [1] });
equals('ticks and records', [timeline.ticks, timeline.records], [12, 10]);
const rows = read(ROWS).timeline;
equals('version 1 has the same releases, discards and modes', [all(rows.lanes[0].releases), all(rows.discards), all(rows.modes), rows.ticks], [
    all(timeline.lanes[0].releases), all(timeline.discards), all(timeline.modes), 12]);
equals('high mode to the end of a trace', all(read('event,tick,task,job,how\nrelease,0,ctl,1,kept\ntick,0,ctl,1,over\ntick,1,ctl,1,more\n').timeline.modes), { begin: [1], end: [2], isEndedByIdleTick: [0] });
equals('a job that is done is not discarded', numbers(read(`event,tick,task,job,how
release,0,log,1,kept
tick,0,log,1,done
release,1,ctl,1,kept
tick,1,ctl,1,over
`).timeline.discards.job), []);
equals('a dropped job is not discarded, and high mode lasts from the first of two overruns', [numbers(read(`event,tick,task,job,how
release,0,log,1,dropped
release,0,ctl,1,kept
tick,0,ctl,1,over
tick,1,ctl,1,over
`).timeline.discards.job), all(read('event,tick,task,job,how\ntick,0,ctl,1,over\ntick,1,ctl,1,over\n').timeline.modes)], [[], { begin: [1], end: [2], isEndedByIdleTick: [0] }]);
const unknown = read(RUNS, 0, []).timeline;
equals('tasks that no task file names', unknown.lanes.map(({ name, level }) => [name, level]), [['ctl', undefined], ['log', undefined]]);
equals('an empty trace', read('event,tick,task,job,how\n').timeline.ticks, 0);

// Row 7 is the second tick of the run from tick 2; row 5 is a release.
const NO_REASON = { header: 0, reason: null };
equals('row 7 of runs', read(RUNS, 7).fault, { ...NO_REASON, line: 6, rows: [6, 8], tick: 3, lane: 0, length: 1 });
equals('row 7 of rows', read(ROWS, 7).fault, { ...NO_REASON, line: 7, rows: [7, 7], tick: 3, lane: 0, length: 1 });
equals('row 5 of runs', read(RUNS, 5).fault, { ...NO_REASON, line: 5, rows: [5, 5], tick: 2, lane: 1, length: 0 });
equals('the last row', read(RUNS, 16).fault, { ...NO_REASON, line: 10, rows: [15, 16], tick: 11, lane: 1, length: 1 });
equals('an idle row', read(RUNS, 12).fault, { ...NO_REASON, line: 8, rows: [10, 13], tick: 8, lane: -1, length: 1 });
equals('no such row', [read(RUNS, 17).fault, read(RUNS, 0).fault], [null, null]);
const asked = [];
timelineOf(TASKS, recordsIn(RUNS), 7, (before, row) => asked.push([before.ticks, before.highSince, row.lane, row.job, row.how, row.past]));
equals('the reason is asked with the records before', asked, [[2, 2, 0, 1, 'more', 1]]);

// ---- Beyond the low budget, and late ----

// A record of six ticks of ctl, of which two are within its low budget; plain EDF writes no overrun.
const split = read('event,tick,length,task,job,how\nrelease,0,,ctl,1,kept\ntick,0,5,ctl,1,more\ntick,5,1,ctl,1,stop\n').timeline;
equals('a record is cut at the low budget', all(split.slices), { begin: [0, 2, 5], end: [2, 5, 6], lane: [0, 0, 0], job: [1, 1, 1], outcome: [0, 0, 2], isBeyond: [0, 1, 1] });
equals('a job that is stopped', split.counts(), { late: 0, dropped: 0, discarded: 0, stopped: 1 });
equals('a second job begins with its whole budget', numbers(read(`event,tick,task,job,how\nrelease,0,ctl,1,kept\ntick,0,ctl,1,more\ntick,1,ctl,1,over\ntick,2,ctl,1,done
release,10,ctl,2,kept\ntick,10,ctl,2,more\ntick,11,ctl,2,more\ntick,12,ctl,2,more\n`).timeline.slices.isBeyond), [0, 0, 1, 0, 0, 1]);
equals('a low job is never beyond a low budget', numbers(read('event,tick,length,task,job,how\nrelease,0,,log,1,kept\ntick,0,9,log,1,more\n').timeline.slices.isBeyond), [0]);

// The deadline of a job that is released at 0 is 10: it is late if it ends at 11, not at 10.
const late = (records) => read(`event,tick,length,task,job,how\nrelease,0,,ctl,1,kept\nrelease,0,,log,1,kept\n${records}`).timeline;
const lateLanes = ({ lanes }) => lanes.map(({ releases }) => numbers(releases.isLate));
equals('in time', lateLanes(late('tick,0,5,log,1,done\ntick,5,5,ctl,1,done\n')), [[0], [0]]);
equals('late by a tick', lateLanes(late('tick,0,5,log,1,done\ntick,5,6,ctl,1,done\n')), [[1], [0]]);
equals('pending at its deadline, which is the end', lateLanes(late('tick,0,5,log,1,done\ntick,5,5,ctl,1,more\n')), [[1], [0]]);
equals('pending before its deadline', lateLanes(late('tick,0,5,log,1,done\ntick,5,4,ctl,1,more\n')), [[0], [0]]);
equals('discarded at its deadline', lateLanes(late('tick,0,9,ctl,1,more\ntick,9,1,ctl,1,over\n')), [[1], [0]]);
equals('discarded after its deadline', lateLanes(late('tick,0,10,ctl,1,more\ntick,10,1,ctl,1,over\n')), [[1], [1]]);

// ---- The drawing: 12 ticks from x = 66 on, 10 pixels each ----

const LEFT = 16 + 7.4 * 6;
const width = LEFT + 120 + 30;
const SCALED = ruleOf(['2', '5'], '');
const PLAIN = ruleOf([], 'rule plain');
const drawn = (begin, end, wide = width, fault = undefined, what = timeline, rule = SCALED) => pictureOf({ timeline: what, rule }, begin, end, wide, fault);
const of = (picture, kind) => picture.shapes.filter(({ attributes }) => attributes.class === kind).map(({ attributes, title }) => [attributes.x ?? attributes.d, attributes.width ?? 0, title]);
const near = (pixels) => Math.round((LEFT + pixels) * 10) / 10;
const whole = drawn(0, 12);
equals('ticks within the low budget', of(whole, 'high'), [[near(0), 10, 'ctl 1, tick 0, more'], [near(10), 10, 'ctl 1, tick 1, over']]);
equals('ticks beyond it', of(whole, 'beyond'), [[near(20), 30, 'ctl 1, tick 2 to 4, more, beyond its low budget'], [near(50), 10, 'ctl 1, tick 5, done, beyond its low budget']]);
equals('ticks of the low task', of(whole, 'low'), [[near(100), 20, 'log 3, tick 10 to 11, more']]);
equals('high mode', of(whole, 'mode'), [[near(20), 50, 'high mode, from the overrun at 2 to the end of the idle tick 6']]);
const sign = (kind, pixels, ground) => `M${Math.round((LEFT + pixels + PATHS[kind][0]) * 10) / 10} ${ground - PATHS[kind][1]}${PATHS[kind][2]}`;
equals('the overrun is at the boundary after the last tick of the low budget', of(whole, 'over'), [[sign('over', 20, 66), 0, 'ctl 1, over at 2']]);
// The ground of ctl is at 66. A sign of a release is 36 pixels high, and the overrun stands above it.
equals('the overrun stands above a release', of(whole, 'over').map(([path]) => path), [`M${near(20)} 29l5-5l-5-5l-5 5z`]);
equals('releases', of(whole, 'release'), [[sign('release', 0, 66), 0, 'ctl 1, released at 0'], [sign('release', 0, 118), 0, 'log 1, released at 0'],
    [sign('release', 26, 118), 0, 'log 2, released at 2'], [sign('release', 106, 118), 0, 'log 3, released at 10']]);
equals('deadlines, none of a dropped job, and beside a release', of(whole, 'deadline'), [[sign('deadline', 100, 66), 0, 'ctl 1, deadline 10'], [sign('deadline', 94, 118), 0, 'log 1, deadline 10']]);
equals('the dropped job, above its release', of(whole, 'dropped'), [[sign('dropped', 26, 118), 0, 'log 2, dropped at 2']]);
// The ground of log is at 118, its boxes reach up to 98, and the ground of ctl is at 66. Its release stands at 26, with a head from 22 to 30.
equals('the discarded job at its boundary, in its own lane: above the boxes, and far from the lane above', of(whole, 'discarded'), [[`M${near(20)} 92m-4-4l8 8m0-8l-8 8`, 0, 'log 1, discarded at 2']]);
equals('the end of the job', of(whole, 'done'), [[sign('done', 60, 66), 0, 'ctl 1, done at 6']]);
equals('lines between ticks', of(whole, 'ticks'), [[`M${near(30)} 46v20M${near(40)} 46v20`, 0, ''], [`M${near(110)} 98v20`, 0, '']]);
equals('size and label', [whole.width, whole.height, whole.label, whole.isAllShown], [width, 144, 'Ticks 0 to 11 of the schedule', true]);
const names = whole.shapes.filter(({ name, attributes }) => name === 'text' && attributes.class !== 'middle').map(({ text }) => text);
equals('names and levels', names, ['ctl', 'high', 'log', 'low']);

// From tick 3 to 6, 100 pixels each: the run from tick 2 is cut, and the deadlines at 10 are outside.
const part = drawn(3, 6, LEFT + 300 + 30);
equals('a window', of(part, 'beyond'), [[near(0), 200, 'ctl 1, tick 2 to 4, more, beyond its low budget'], [near(200), 100, 'ctl 1, tick 5, done, beyond its low budget']]);
equals('high mode in a window', of(part, 'mode'), [[near(0), 300, 'high mode, from the overrun at 2 to the end of the idle tick 6']]);
equals('no sign from outside', ['release', 'deadline', 'dropped', 'discarded'].flatMap((kind) => of(part, kind)), []);
equals('a job that ended with the tick before', of(drawn(6, 9, LEFT + 330), 'done'), [[sign('done', 0, 66), 0, 'ctl 1, done at 6']]);
equals('an overrun with the tick before', of(drawn(2, 5, LEFT + 330), 'over').map(([, , title]) => title), ['ctl 1, over at 2']);
const lateWindow = drawn(8, 11, LEFT + 330, undefined, late('tick,0,5,log,1,done\ntick,5,6,ctl,1,stop\n'));
equals('a deadline that is missed, and the end of its job', ['late', 'deadline', 'stop'].map((kind) => of(lateWindow, kind)), [[[sign('late', 200, 66), 0, 'ctl 1, deadline 10 missed']],
    [[sign('deadline', 200, 118), 0, 'log 1, deadline 10']], [[sign('stop', 300, 66), 0, 'ctl 1, stop at 11']]]);
equals('signs of one boundary do not touch', (() => {
    const { shapes } = drawn(0, 12, width, undefined, read('event,tick,task,job,how\nrelease,0,log,1,kept\nidle,0,,,\nrelease,10,log,2,kept\n').timeline);
    const positions = shapes.filter(({ attributes }) => ['release', 'deadline'].includes(attributes.class)).map(({ attributes: { d } }) => Number(/^M([\d.]+)/.exec(d)[1]));
    return positions.map((position) => Math.round(position - LEFT) + 0);
})(), [0, 106, 94]);
const dropping = drawn(0, 12, width, undefined, read('event,tick,task,job,how\nrelease,0,ctl,1,kept\ntick,0,ctl,1,more\ntick,1,ctl,1,over\nrelease,2,log,1,dropped\n').timeline);
equals('a release that is dropped stands at its boundary', ['release', 'dropped'].map((kind) => of(dropping, kind).at(-1)[0]), [sign('release', 20, 118), sign('dropped', 20, 118)]);
equals('a deadline of a release before the window', of(drawn(9, 12, LEFT + 330), 'deadline').length, 2);

// ---- Virtual deadlines: p/q of the period after the release, of high jobs in low mode ----

const virtual = (picture) => of(picture, 'virtual');
const IN_LOW_MODE = 'which counts in low mode';
// 2/5 of the period 10 is 4. The stem stands on the ground at 66, and the tip of the triangle on the boxes, which reach up to 46.
equals('the virtual deadline of the high job, and none of the low ones', virtual(whole), [[`M${near(40)} 66v-4m0-4v-4m0-4v-4l-4-7h8l-4 7`, 0, `ctl 1, virtual deadline 4, ${IN_LOW_MODE}`]]);
const third = (begin, end) => virtual(drawn(begin, end, LEFT + 100 * (end - begin) + 30, undefined, timeline, ruleOf(['1', '3'], '')));
equals('one between boundaries, at 10/3', third(0, 4), [[sign('virtual', 1000 / 3, 66), 0, `ctl 1, virtual deadline 10/3 (about 3.33), ${IN_LOW_MODE}`]]);
equals('from which windows it is seen', [[0, 3], [0, 4], [3, 5], [4, 6]].map((window) => third(...window).length), [0, 1, 1, 0]);
equals('on the first and on the last boundary of a window', [[4, 7], [1, 4], [5, 8], [0, 3]].map((window) => virtual(drawn(...window)).length), [1, 1, 0, 0]);
equals('none under plain EDF, or under the scale 1/1, where it is the deadline', [PLAIN, ruleOf(['1', '1'], '')].map((rule) => virtual(drawn(0, 12, width, undefined, timeline, rule))), [[], []]);
equals('none of a task that no task file names', virtual(drawn(0, 12, width, undefined, unknown)), []);
// nav is released at 2 in high mode, which the idle tick 4 ends; its next job is released at 6 in low mode, half a period of 4 before 8.
const NAV = [TASKS[0], { name: 'nav', level: 'high', period: 4, low: 1, high: 1 }];
const released = read(`event,tick,task,job,how
release,0,ctl,1,kept
tick,0,ctl,1,more
tick,1,ctl,1,over
release,2,nav,1,kept
tick,2,nav,1,done
tick,3,ctl,1,done
idle,4,,,
release,6,nav,2,kept
`, 0, NAV).timeline;
equals('none of a job that is released in high mode', virtual(drawn(0, 12, width, undefined, released, ruleOf(['1', '2'], ''))).map(([, , words]) => words),
    [`ctl 1, virtual deadline 5, ${IN_LOW_MODE}`, `nav 2, virtual deadline 8, ${IN_LOW_MODE}`]);
equals('none of a job that is dropped, as no high job may be', virtual(drawn(0, 12, width, undefined, read('event,tick,length,task,job,how\nrelease,0,,ctl,1,dropped\nidle,0,12,,,\n').timeline)), []);
const MOST = 4294967295;
const far = read('event,tick,length,task,job,how\nidle,0,7,,,\nrelease,7,,x,1,kept\n', 0, [{ name: 'x', level: 'high', period: MOST, low: 1, high: 1 }]).timeline;
const farthest = (p, q, end = MOST + 7) => virtual(drawn(0, end, width, undefined, far, ruleOf([p, q].map(String), ''))).map(([, , words]) => words);
// (2^32 - 2)/(2^32 - 1) of 2^32 - 1 ticks is 2^32 - 2; a half is 2147483647.5, and 7 more are 4294967309/2.
equals('the greatest numbers, exactly', [farthest(MOST - 1, MOST), farthest(1, 2)].flat(), [`x 1, virtual deadline 4294967301, ${IN_LOW_MODE}`,
    `x 1, virtual deadline 4294967309/2 (about 2147483654.50), ${IN_LOW_MODE}`]);

equals('the last boundary of a window that long', [4294967300, 4294967301].map((end) => farthest(MOST - 1, MOST, end).length), [0, 1]);

// ---- The row at fault ----

const faulty = (begin, end, wide, tick, lane, length) => drawn(begin, end, wide, { tick, lane, length, words: 'illegal row 7' });
const outline = (...given) => faulty(...given).shapes.filter(({ attributes }) => attributes.class === 'illegal').map(({ attributes: { d, x, y, width: wide, height }, title }) => [d ?? [x, y, wide, height], title]);
// Tick 2 of log, 100 pixels wide. Its lane is from 69 to 121. The cross of the discarded job is at 200, up to 204, and signs reach 6 pixels.
equals('a tick at fault, without the signs at its boundaries', outline(0, 3, LEFT + 330, 2, 1, 1), [[`M${near(250)} 4V69`, 'illegal row 7'], [[near(206), 69, 88, 52], 'illegal row 7']]);
equals('a narrow one, by 6 pixels about its middle', outline(0, 12, width, 3, 0, 1), [[`M${near(35)} 4V17`, 'illegal row 7'], [[near(32), 17, 6, 52], 'illegal row 7']]);
equals('a release, with the signs beside it', outline(0, 12, width, 2, 1, 0), [[`M${near(32)} 4V69`, 'illegal row 7'], [[near(8), 69, 24, 52], 'illegal row 7']]);
equals('a first release, beside the name of its task', outline(0, 12, width, 0, 0, 0)[1][0], [near(-6), 17, 18, 52]);
equals('an idle row, in all lanes', outline(0, 12, width, 3, -1, 1), [[`M${near(35)} 4V118`, 'illegal row 7']]);
equals('ticks that are not in the window 6 to 9', [3, 5, 6, 8, 9].map((tick) => outline(6, 9, width, tick, 0, 1).length), [0, 0, 2, 2, 0]);
equals('releases that are not', [5, 6, 9, 10].map((tick) => outline(6, 9, width, tick, 0, 0).length), [0, 2, 2, 0]);
const kinds = faulty(0, 12, width, 2, 1, 1).shapes.map(({ attributes }) => attributes.class);
holds('it is drawn over the ticks and under the signs', kinds.lastIndexOf('low') < kinds.indexOf('illegal') && kinds.lastIndexOf('illegal') < kinds.indexOf('release'));

// ---- In words ----

equals('what the drawing shows, in words', faulty(0, 12, width, 3, 0, 1).words, `high mode, from the overrun at 2 to the end of the idle tick 6. \
ctl 1, tick 0, more. ctl 1, tick 1, over. ctl 1, tick 2 to 4, more, beyond its low budget. ctl 1, tick 5, done, beyond its low budget. log 3, tick 10 to 11, more. \
illegal row 7. ctl 1, released at 0. ctl 1, deadline 10. ctl 1, virtual deadline 4, which counts in low mode. log 1, released at 0. log 2, released at 2. log 3, released at 10. \
log 1, deadline 10. log 2, dropped at 2. log 1, discarded at 2. ctl 1, over at 2. ctl 1, done at 6.`);
const ending = drawn(0, 12, width, undefined, read('event,tick,task,job,how\nrelease,0,ctl,1,kept\ntick,0,ctl,1,over\ntick,1,ctl,1,more\n').timeline);
equals('high mode that no idle tick ends', of(ending, 'mode').map(([, , words]) => words), ['high mode, from the overrun at 1 to the end of the trace']);
const row = (count) => drawn(0, 2 * count, 4000, undefined, read(`event,tick,task,job,how\n${Array.from({ length: count }, (_, job) => `release,${job},x,${job + 1},kept\nidle,${job},,,\n`).join('')}`, 0, []).timeline).words;
equals('a hundred and twenty things are said', row(120).split('. ').slice(-1), ['x 120, released at 119.']);
equals('and of more their number', row(123).split('. ').slice(-2), ['x 120, released at 119', 'And 3 more, which are said if there are fewer ticks.']);

// ---- Many ticks ----

const lines = ['event,tick,task,job,how', 'release,0,log,1,kept'];
for (let tick = 0; tick < 100000; tick += 1) {
    if (tick % 10 === 0 && tick > 0) lines.push(`release,${tick},log,${tick / 10 + 1},kept`);
    lines.push(tick % 10 === 0 ? `tick,${tick},log,${tick / 10 + 1},done` : `idle,${tick},,,`);
}
const long = read(`${lines.join('\n')}\n`).timeline;
equals('each release of many', numbers(long.lanes[1].releases.tick), Array.from({ length: 10000 }, (_, job) => 10 * job));
const alone = read('event,tick,length,task,job,how\ntick,0,1,log,1,done\nidle,1,99999,,,\n').timeline;
equals('one tick of many is seen', of(drawn(0, 100000, width, undefined, alone), 'low').map(([, wide]) => wide), [0.6]);
const picture = drawn(0, 100000, 1000, undefined, long);
holds('few shapes for many ticks', picture.shapes.length < 1500);
holds('signs that would hide each other are left out', !picture.isAllShown && of(picture, 'release').length === 0);
const steps = (count) => drawn(0, 2 * count, LEFT + 120 + 30, undefined, read(`event,tick,task,job,how\n${Array.from({ length: count }, (_, job) => `release,${2 * job},x,${job + 1},kept\nidle,${2 * job},,,\nidle,${2 * job + 1},,,\n`).join('')}`, 0, []).timeline);
equals('signs are drawn if each has nine pixels', [16, 17].map((count) => of(steps(count), 'release').length), [16, 0]);
// A virtual deadline every 2 ticks, 1 tick after its release: 16 of them need 144 of the 150 pixels to the right of the names, 17 need 153.
const twos = (count) => drawn(0, 2 * count, LEFT + 120 + 30, undefined, read(`event,tick,task,job,how\n${Array.from({ length: count }, (_, job) => `release,${2 * job},x,${job + 1},kept\nidle,${2 * job},,,\nidle,${2 * job + 1},,,\n`).join('')}`,
    0, [{ name: 'x', level: 'high', period: 2, low: 1, high: 1 }]).timeline, ruleOf(['1', '2'], ''));
equals('so are virtual deadlines', [16, 17].map((count) => virtual(twos(count)).length), [16, 0]);
const covered = of(picture, 'low').reduce((sum, [, wide]) => sum + wide, 0);
holds('narrow ticks stay visible', covered > 400 && covered < 1000);
// The picture has 939 pixels for ticks and 62 for a number, so a window has at most 15 steps of 1, 2, 5, 10, 20, .. ticks.
const numbered = (begin, end) => drawn(begin, end, 1000, undefined, long).shapes.filter(({ attributes }) => attributes.class === 'middle').map(({ text }) => Number(text));
const by = (step, from, to) => Array.from({ length: (to - from) / step + 1 }, (_, index) => from + step * index);
equals('the boundaries that have a number', [[0, 15], [0, 16], [0, 31], [7, 47], [0, 75], [0, 76], [0, 200]].map(([begin, end]) => numbered(begin, end)), [by(1, 0, 15), by(2, 0, 16), by(5, 0, 30), by(5, 10, 45),
    by(5, 0, 75), by(10, 0, 70), by(20, 0, 200)]);
equals('a window in the middle of many ticks', of(drawn(50000, 50020, 1000, undefined, long), 'release').length, 3);
holds('nothing is outside the picture', picture.shapes.every(({ attributes: { x, width: wide } }) => x === undefined || (x >= 0 && x + (wide ?? 0) <= 1000.1)));

// ---- Words of others ----

const hostile = read('event,tick,task,job,how\nrelease,0,<img src=x onerror=alert(1)>,1,kept\n', 0, []).timeline;
const shapes = drawn(0, 1, 400, undefined, hostile).shapes;
holds('a hostile name is a text and a title, and no attribute', shapes.some(({ title }) => title.startsWith('<img')) && shapes.every(({ attributes }) => !JSON.stringify(attributes).includes('<')));
equals('each sign of the legend has its path or is an area', LEGEND.map(([kind, , path]) => [kind in PATHS, path !== undefined]).map(([one, other]) => one === other && one),
    [true, true, true, true, false, false, false, true, false, true, true, true, false]);
// The corners of a path of the legend: those that the pen moves to (M), and those that a line leads to (L).
const corners = (path) => {
    let pen = [0, 0];
    return [...path.matchAll(/([Mmlhv])([^Mmlhvz]*)/g)].map(([, letter, numbers]) => {
        const by = (numbers.match(/-?\d+/g) ?? []).map(Number);
        const [x, y] = { h: [by[0], 0], v: [0, by[0]] }[letter] ?? by;
        pen = letter === 'M' ? [x, y] : [pen[0] + x, pen[1] + y];
        return `${/m/i.test(letter) ? 'M' : 'L'}${pen}`;
    }).join(' ');
};
equals('the signs of the legend, corner by corner', LEGEND.filter(([, , path]) => path).map(([kind, , path]) => [kind, corners(path)]), [
    ['release', 'M11,21 L11,1 M7,7 L11,1 L15,7'],
    ['deadline', 'M11,1 L11,21 M7,15 L11,21 L15,15'],
    ['late', 'M11,1 L11,21 M7,15 L11,21 L15,15 M6,3 L16,13 M16,3 L6,13'],
    ['virtual', 'M11,21 L11,17 M11,14 L11,10 M11,7 L7,1 L15,1 L11,7'],
    ['over', 'M11,16 L16,11 L11,6 L6,11'],
    ['done', 'M11,21 L11,1'],
    ['stop', 'M11,21 L11,2 M6,2 L16,2'],
    ['dropped', 'M6,6 L16,16 M16,6 L6,16'],
]);
equals('what the legend says of high mode', LEGEND.find(([kind]) => kind === 'mode')[1], 'high mode: from an overrun to the end of the first idle tick');
ends('drawing');
