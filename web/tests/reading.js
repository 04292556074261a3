// Tries what the page reads and writes of files by itself: CSV, task files, fractions, links and work files. The wanted values are worked
// out by hand.
import { adviceOn } from '../src/advice.js';
import { isReadAlike, whyRefused } from '../src/alike.js';
import { conditionsOf } from '../src/conditions.js';
import { countsOf, unfinished } from '../src/counts.js';
import { lineAt, lineOfRecord, recordsIn } from '../src/csv.js';
import { Fraction, ONE } from '../src/fraction.js';
import { fragmentOf, MOST_LINK, stateOf } from '../src/link.js';
import { ticksOf } from '../src/recorded_ticks.js';
import { noScaleWords, rangeWords, scaleWords } from '../src/scale_words.js';
import { withNumber, withoutScale, withScale } from '../src/task_edits.js';
import { lineOfTaskError, readTasks, tasksIn } from '../src/task_file.js';
import { documentIn } from '../src/toml.js';
import { sideOf } from '../src/unseen.js';
import { MOST_JOBS, workOf } from '../src/workload.js';
import { ends, equals, holds } from './expect.js';

// ---- CSV ----

const records = (text) => [...recordsIn(text)].map(({ line, last, fields }) => [line, last, ...fields]);
equals('an empty text', records(''), []);
equals('two records', records('a,b\nc,\n'), [[0, 0, 'a', 'b'], [1, 1, 'c', '']]);
equals('no line feed at the end', records('a\nb'), [[0, 0, 'a'], [1, 1, 'b']]);
equals('carriage returns, empty lines and a byte order mark', records('\ufeffa,b\r\n\r\n\nc,d\r\n'), [[0, 0, 'a', 'b'], [3, 3, 'c', 'd']]);
equals('quotes', records('"a,""b""",c\r\n"",x\n'), [[0, 0, 'a,"b"', 'c'], [1, 1, '', 'x']]);
equals('a line feed in quotes', records('x\n"a\n\nb",c\nd\n'), [[0, 0, 'x'], [1, 3, 'a\n\nb', 'c'], [4, 4, 'd']]);
equals('a quote inside a field is a letter', records('a"b,c\n'), [[0, 0, 'a"b', 'c']]);
equals('letters after a quoted field', records('"a"b,c\n'), [[0, 0, 'ab', 'c']]);
equals('an open quote', records('"a\nb'), [[0, 1, 'a\nb']]);
equals('the line of a record', [1, 2, 3, 4].map((number) => lineOfRecord('h\n\n"a\nb"\nc\n', number)), [0, 2, 4, -1]);
equals('a line', [0, 1, 2, 9].map((line) => lineAt('abc\r\nde\nf', line, 9)), ['abc', 'de', 'f', '']);
equals('a line that is cut', lineAt('abcdef', 0, 3), 'abc…');

// ---- Task files ----

const FILE = `# A comment with [[task]] and "quotes
version = 2
scale = [ 1, 2 ]   # a half

[[task]]
name = "ctl"
level = "high"
period = 1_000
low = 0x10
high = +20

[[task]] # second
name = 'log'
level = "low"
period = 40
low = 5
`;
equals('tasks', tasksIn(FILE), [
    { name: 'ctl', level: 'high', period: 1000, low: 16, high: 20 }, { name: 'log', level: 'low', period: 40, low: 5, high: undefined }]);
equals('inline tables', tasksIn('task = [{ name = "a", level = "low", period = 7, low = 1 },\n { name = "b", low = 2 }]\n'), [
    { name: 'a', level: 'low', period: 7, low: 1, high: undefined }, { name: 'b', level: undefined, period: undefined, low: 2, high: undefined }]);
equals('names with escapes', tasksIn('[[task]]\nname = "a\\u0062\\x63\\n\\U0001F600\\UFFFFFFFF"\n')[0].name, 'abcn😀UFFFFFFFF');
equals('a letter that there is not', tasksIn('[[task]]\nname = "a\\U00110000b"\n')[0].name, 'ab');
const readable = (period, low) => readTasks(`[[task]]\nname = "a"\nperiod = ${period}\nlow = ${low}\n`).length;
equals('tasks whose numbers can be read', [readable(1, 1), readable(0, 1), readable(1, 0), readable('"x"', 1)], [1, 0, 0, 0]);
equals('no task', tasksIn('[other]\nname = "x"\n'), []);
equals('a hostile key', tasksIn('[[task]]\n__proto__ = 1\nconstructor = 2\nname = "a"\n')[0].name, 'a');
equals('another low budget', withNumber(FILE, 0, 'low', 3), FILE.replace('0x10', '3'));
equals('another budget of the second task', withNumber(FILE, 1, 'low', 99), FILE.replace('low = 5', 'low = 99'));
equals('no such key', [withNumber(FILE, 1, 'high', 3), withNumber(FILE, 2, 'low', 3)], [null, null]);
equals('another scale', withScale(FILE, 3n, 4n), FILE.replace('[ 1, 2 ]', '[3, 4]'));
equals('a scale in a file without one', withScale('# x\n[[task]]\n', 3, 4), 'version = 2\nscale = [3, 4]\n# x\n[[task]]\n');
equals('a scale after a byte order mark', withScale('\ufeffx = 1\n', 3, 4), '\ufeffversion = 2\nscale = [3, 4]\nx = 1\n');
equals('a scale in a file of version 1', withScale('version = 1 # one\n[[task]]\n', 3, 4), 'version = 2\nscale = [3, 4] # one\n[[task]]\n');
equals('a scale in a file without version', withScale('scale = [1, 9]\n', 3, 4), 'version = 2\nscale = [3, 4]\n');
equals('no scale', withoutScale(FILE), FILE.replace('scale = [ 1, 2 ]   # a half\n', ''));
equals('no scale where there is none', withoutScale('a = 1\n'), 'a = 1\n');
equals('a scale on the last line', withoutScale('version = 2\nscale = [1, 2]'), 'version = 2\n');
equals('a scale over lines', documentIn('scale = [\n1,\n2]\nversion = 2\n').top.values.get('scale'), [1, 2]);
const lines = (messages) => messages.map((message) => lineOfTaskError(`task file: ${message}`, FILE));
equals('lines of error messages', lines(['task 1: out of range period', 'task 2: wrong kind of name', 'task 2: missing key high', 'task 0: out of range scale',
    'tasks 1 and 2 have one name', 'task 1: high budget below low budget', 'unknown version', 'not TOML', 'task 7: bad name', 'task 2: unknown key low']),
[7, 12, 11, 2, 12, 9, 1, -1, -1, 15]);
equals('a line after a text over lines', lineOfTaskError('task file: task 1: out of range low', 'x = """\na\nb"""\n[[task]]\nlow = 0\n'), 4);
equals('no message of a task file', lineOfTaskError('trace line 3: wrong tick', FILE), -1);

// ---- Error messages ----

// The messages of docs/MISTAKES.md have advice, of which a few words are wanted here.
const ADVISED = [['not TOML', 'begins with a line [[task]]'], ['unknown key tasks', 'stand below its [[task]]'], ['unknown version', 'The version is 1 or 2.'],
    ['task 0: wrong kind of scale', 'scale = [p, q]'], ['task 0: out of range scale', '1 ≤ p ≤ q'], ['no tasks', 'two brackets'], ['task 0: wrong kind of task', 'two brackets'],
    ['task 1: wrong kind of task', 'two brackets'], ['task 12: unknown key wcet', 'the budget low'], ['task 1: missing key level', 'the budget low'],
    ['task 1: wrong kind of name', 'in quotes'], ['task 1: wrong kind of level', 'in quotes'], ['task 3: wrong kind of period', 'whole numbers'], ['task 1: wrong kind of low', 'whole numbers'],
    ['task 1: bad name', 'no space'], ['task 1: out of range level', '"low" or "high"'], ['task 1: out of range high', 'from 1 to 4,294,967,295'],
    ['task 1: missing key high', 'two budgets'], ['task 2: high budget on a low task', 'has one budget'], ['task 1: high budget below low budget', 'at least its low budget'],
    ['tasks 1 and 2 have one name', 'a name of its own'], ['task 2: periods out of range', '2^60']].map(([message, words]) => [`task file: ${message}`, words]);
ADVISED.push(...[['header is not task,release,need', 'The first line is'], ['not three fields', 'three fields'], ['unknown task', 'no task of this name'], ['bad number', 'digits alone'],
    ['need is 0', 'at least one tick'], ['release before the last one', 'in the order'], ['too soon, next 20', 'at least its period apart']].map(([message, words]) => [`work file line 2: ${message}`, words]));
ADVISED.push(...[['header is of no trace version', 'That of a recording is time,event,task.'], ['not five fields', 'idle,6,,, of five'], ['not six fields', 'idle,6,4,,, of six'],
    ['unknown event', 'release, tick or idle'], ['unknown task', 'no task of this name'], ['bad number', 'counted from 1'], ['wrong tick', 'from 0 on without a gap'],
    ['bad length', 'at least 1']].map(([message, words]) => [`trace line 2: ${message}`, words]));
ADVISED.push(...[['header is not task,period,deadline,budget', 'The first line is'], ['not four fields', 'four fields'], ['deadline after period', 'at most the period'],
    ['periods out of range', '500,000']].map(([message, words]) => [`demand file line 2: ${message}`, words]));
for (const [message, words] of ADVISED) holds(`advice on ${message}`, adviceOn(message).includes(words));
equals('no more to say', ['task file: 129 tasks, at most 128', 'work file line 1000002: more than 1000000 rows', 'trace line 2: unknown', ''].map(adviceOn), ['', '', '', '']);

// ---- Fractions ----

const fraction = (text) => Fraction.of(text);
equals('sums', ['1/2', '1/3'].map(fraction).reduce((one, other) => one.plus(other)).toString(), '5/6');
equals('a difference, a product and a quotient', [fraction('1/2').minus(fraction('2/3')), fraction('2/3').times(fraction('3/4')), fraction('2/3').by(fraction('4/3'))].map(String),
    ['-1/6', '1/2', '1/2']);
equals('lowest terms', [fraction('0/7'), fraction('10/4'), fraction('3')].map(String), ['0/1', '5/2', '3/1']);
holds('1/3 is at most 1/3, and not above', fraction('1/3').isAtMost(fraction('2/6')) && !fraction('1/3').isAbove(fraction('1/3')) && ONE.isAbove(fraction('0/1')));
equals('a number', fraction('3/8').toNumber(), 0.375);
equals('the conditions of a set that is refused', Object.values(conditionsOf(...['1/2', '1/4', '1/1'].map(fraction))).map(String), ['3/2', '1/2', '5/4']);
equals('U_LL of 1', Object.values(conditionsOf(...['1/1', '1/4', '1/2'].map(fraction))).map(String), ['3/2', 'null', 'null']);

// ---- Read as the proved code reads it ----

const CONTROL = '[[task]]\nname = "ctl"\nlevel = "high"\nperiod = 10\nlow = 2\nhigh = 6\n[[task]]\nname = "log"\nlevel = "low"\nperiod = 10\nlow = 5\n';
holds('read alike', isReadAlike(CONTROL, ['1/2', '1/5', '3/5']));
holds('no period', !isReadAlike(CONTROL.replaceAll('period = 10', 'period = 0'), ['1/2', '1/5', '3/5']));
holds('not read alike', !isReadAlike(CONTROL, ['1/2', '1/5', '4/5']) && !isReadAlike(CONTROL.replace('low = 5', 'low = "five"'), ['1/2', '1/5', '3/5']));
// The loads of a task of an unknown level are in none of the sums.
const EXTRA = `${CONTROL}[[task]]\nname = "odd"\nlevel = "middle"\nperiod = 10\nlow = 1\n`;
equals('another number of tasks', [2, 3, 1, undefined].map((count) => isReadAlike(CONTROL, ['1/2', '1/5', '3/5'], count)), [true, false, false, true]);
equals('a task of an unknown level', [2, 3, undefined].map((count) => isReadAlike(EXTRA, ['1/2', '1/5', '3/5'], count)), [false, false, false]);
const statuses = (budgets, scales, speed) => whyRefused({ budgets: { status: budgets }, scales: { status: scales }, speed: { status: speed } });
const REFUSED = (status) => `The proved code refuses the numbers that this page reads from the task file (status ${status}), so it tries no other values.`;
equals('calls that refuse nothing', [statuses(0, 0, 0), statuses(0, 8, 0)], ['', '']);
equals('calls that refuse numbers', [statuses(4, 0, 0), statuses(0, 3, 0), statuses(0, 8, 7), statuses(8, 0, 0)], [4, 3, 7, 8].map(REFUSED));

// ---- Scales ----

// With loads in tenths, low 1 and high 2 and 3: plain EDF has 1 + 3 of at most 10. The least scale is 2/(10 - 1), and the greatest is 1.
const PLAIN = { least: '2/9', greatest: '1/1' };
const NEEDS_NONE = 'The rule of this set is plain EDF, which needs no scale. With virtual deadlines,';
equals('the scales of a set under plain EDF', rangeWords(PLAIN, true), `${NEEDS_NONE} the scales from 2/9 to 1/1 would hold; they are shaded.`);
equals('those of a set without high tasks', rangeWords({ least: '0/1', greatest: '1/1' }, true), `${NEEDS_NONE} each scale above 0 and up to 1/1 would hold; they are shaded.`);
equals('one scale alone', [true, false].map((isPlain) => rangeWords({ least: '1/1', greatest: '1/1' }, isPlain)),
    [`${NEEDS_NONE} the scale 1/1 alone would hold; it is marked.`, 'The scale 1/1 alone holds; it is marked.']);
equals('under virtual deadlines', [['2/5', '4/5'], ['0/1', '1/1']].map(([least, greatest]) => rangeWords({ least, greatest }, false)),
    ['The scales from 2/5 to 4/5 hold; they are shaded.', 'Each scale above 0 and up to 1/1 holds; they are shaded.']);
equals('the scale at the slider', [null, '2/9', '1/9', '1/1'].map((scale) => scaleWords(PLAIN, scale && fraction(scale))),
    ['No scale is in use: plain EDF has no x.', 'x = 2/9 = 0.2222 holds', 'x = 1/9 = 0.1111 does not hold', 'x = 1/1 = 1.0000 holds']);
equals('no scale', [null, fraction('1/2')].map(noScaleWords), ['', ' The file’s own scale 1/2 does not hold either.'].map((more) =>
    `No scale holds. One holds exactly if the test admits the set, so there is none to choose here yet.${more}`));

// ---- Links ----

const state = { tab: 'judge', tasks: 'name = "ü<img>"\n', trace: '', scale: '1/2' };
equals('a link there and back', stateOf(fragmentOf(state)), state);
equals('a link by hand', stateOf(`#1.${Buffer.from('{"tab":"fit","tasks":"x?>"}').toString('base64url')}`), { tab: 'fit', tasks: 'x?>' });
holds('letters of a link', /^#1\.[A-Za-z0-9_-]+$/.test(fragmentOf({ tab: 'fit', tasks: '~~~???>>>ÿÿÿ' })));
const coded = (value) => `#1.${Buffer.from(typeof value === 'string' ? value : JSON.stringify(value)).toString('base64url')}`;
const wrong = ['', '#', '#1.', '#2.e30', '#1.e30', '#1.!!', '#1.AAAA', coded('null'), coded('[1]'), coded('"x"'), coded({ tab: 'other' }), coded({ tab: 'fit', tasks: 7 }),
    coded({ tab: 'fit', tasks: ['x'] }), coded('{"tab":"fit"'), `#1.${Buffer.from('{"tab":"fit","tasks":"\xff"}', 'latin1').toString('base64url')}`];
equals('links that are none', wrong.map(stateOf), wrong.map(() => null));
equals('names that a link may not set', stateOf(coded('{"tab":"fit","__proto__":{"tasks":"y"},"hidden":"z"}')), { tab: 'fit' });
equals('a link that would be too long', fragmentOf({ tab: 'fit', tasks: 'x'.repeat(MOST_LINK) }), null);
const EMPTY = JSON.stringify({ tab: 'fit', tasks: '' }).length;
const longest = { tab: 'fit', tasks: 'x'.repeat(MOST_LINK - EMPTY) };
equals('the longest link', stateOf(fragmentOf(longest)), longest);
equals('no longer one', [fragmentOf({ ...longest, tasks: `${longest.tasks}x` }), stateOf(coded({ ...longest, tasks: `${longest.tasks}xxxx` }))], [null, null]);

// ---- Work files ----

const [ctl, log] = tasksIn(CONTROL);
equals('a work file', workOf([ctl, { ...log, period: 6 }], 12, false), 'task,release,need\nctl,0,2\nlog,0,5\nlog,6,5\nctl,10,2\n');
equals('a work file with overruns', workOf([ctl, { ...log, period: 6 }], 11, true), 'task,release,need\nctl,0,6\nlog,0,5\nlog,6,5\nctl,10,2\n');
equals('no more than these jobs', [workOf([{ ...log, period: 1 }], MOST_JOBS + 1, false), workOf([{ ...log, period: 1 }], NaN, false)], [null, null]);
equals('these jobs', workOf([{ ...log, period: 1 }], MOST_JOBS, false).split('\n').length, MOST_JOBS + 2);

// ---- Who has a tick of a recording: most of it, or as much as any and the later name ----

const NUMBERS = new Map([['a', 1], ['b', 2]]);
const owned = (...runs) => {
    const { owners, mostLost } = ticksOf(NUMBERS, runs.map(([time, name]) => ({ time, name })), 0, 10, 10);
    return [...owners, mostLost];
};
equals('ticks of 10 ns', [owned([0, 'a'], [6, 'b']), owned([0, 'a'], [4, 'b']), owned([0, 'a'], [5, 'b']), owned([0, 'b'], [5, 'a']), owned([0, 'a'], [5, null]), owned([0, null], [5, 'a'])], [
    [1, 4], [2, 4], [2, 5], [2, 5], [1, 5], [1, 5]]);

// ---- Counts of a report ----

const REPORT = `task ctl released 1 kept 1 dropped 0 discarded 0 done 1 stopped 0 ticks 6 response 6
task log released 9 kept 7 dropped 2 discarded 1 done 5 stopped 1 ticks 2 response -
idle 4
switches 1
`;
const counts = countsOf(REPORT);
equals('the sums over the tasks', ['released', 'kept', 'dropped', 'discarded', 'done', 'stopped', 'ticks'].map((name) => counts[name]), [10, 8, 2, 1, 6, 1, 8]);
equals('one job is enough to be named', unfinished(counts), '. Not every job got all its ticks: 1 discarded, 2 dropped, 1 stopped');
equals('many jobs of one kind', unfinished({ discarded: 0, dropped: 0, stopped: 1234567 }), '. Not every job got all its ticks: 1,234,567 stopped');
equals('each job got all its ticks', unfinished({ discarded: 0, dropped: 0, stopped: 0 }), '');

// ---- Answers out of sight ----

// In a window of 600 pixels a block is seen if 24 of them show it.
equals('where an answer is', [[577, 700], [576, 700], [-100, 23], [-100, 24], [0, 40], [900, 990], [-90, 900]].map(([top, bottom]) => sideOf({ top, bottom }, 600)),
    ['below', '', 'above', '', '', 'below', '']);
ends('reading');
