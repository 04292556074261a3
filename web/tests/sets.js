// Asks the module of a page for sets of numbers what sets.py asked the shared library: each status and each byte that is stored must be the
// library's. And a few sets whose answers were worked out by hand. The words of the call are the page and the file with the random sets.
import { readFileSync } from 'node:fs';
import { OUT_OF_MEMORY, STOPPED } from '../src/instance.js';
import { Sets } from '../src/sets.js';
import { ends, equals, holds } from './expect.js';

const [page, file] = process.argv.slice(2);
const module = /<script type="text\/plain" id="sets">([A-Za-z0-9+/=]+)<\/script>/.exec(readFileSync(page, 'latin1'))[1];
const sets = new Sets(new WebAssembly.Module(Buffer.from(module, 'base64')));

const task = ([level, period, low, high]) => ({ level: level === 0 ? 'low' : 'high', period, low, high: level === 0 ? undefined : high });
const hex = ({ status, bytes }) => [status, status === 0 ? Buffer.from(bytes).toString('hex') : ''];
const statuses = new Map();
for (const [numbers, budgets, scales, speed] of JSON.parse(readFileSync(file, 'utf8'))) {
    const tasks = numbers.map(task);
    const found = [sets.stored('edfvd_raw_sensitivity', tasks, 8 * tasks.length, BigInt(tasks.length)), sets.stored('edfvd_raw_scales', tasks, 32),
        sets.stored('edfvd_raw_speed', tasks, 8)].map(hex);
    for (const [call, [status]] of found.entries()) statuses.set(`${call} ${status}`, (statuses.get(`${call} ${status}`) ?? 0) + 1);
    equals(`the set ${JSON.stringify(numbers)}`, found, [budgets, scales, speed]);
}
// By call: a set that is answered, no set, too many tasks, a number that is 0, budgets in the wrong order, periods out of range; and no scale.
for (const seen of ['0 0', '1 0', '2 0', '0 1', '0 2', '0 3', '0 4', '0 7', '1 8']) holds(`call and status ${seen} among the sets`, statuses.has(seen));

// ---- By hand ----

// With loads in tenths: log 5 and ctl 2 and 6. Plain EDF needs 5 + 6 at most 10. By a scale x = 2/5 the sum is 2 + 6; it holds up to 4/5.
const CONTROL = [[1, 10, 2, 6], [0, 10, 5, 5]].map(task);
equals('the budgets of control', sets.budgets(CONTROL), { status: 0, most: [{ low: 4, high: 8 }, { low: 6, high: 0 }] });
equals('the scales of control', sets.scales(CONTROL), { status: 0, least: '2/5', greatest: '4/5' });
// U_LL = 1/2, U_HL = 1/4 and U_HH = 1: with a high budget of 3 it is 3/4, and x = 1/2 gives 1/4 + 3/4.
const REFUSED = [[0, 2, 1, 1], [1, 4, 1, 4]].map(task);
equals('the budgets of a set that is not admitted', sets.budgets(REFUSED), { status: 0, most: [{ low: 0, high: 0 }, { low: 0, high: 3 }] });
equals('no scale', sets.scales(REFUSED), { status: 8, why: undefined });
equals('one scale alone', sets.scales([[0, 2, 1, 1], [1, 4, 1, 3]].map(task)), { status: 0, least: '1/2', greatest: '1/2' });
equals('no high task', sets.scales([[0, 2, 1, 1]].map(task)), { status: 0, least: '0/1', greatest: '1/1' });
equals('no low task', sets.scales([[1, 3, 1, 3]].map(task)), { status: 0, least: '1/3', greatest: '1/1' });
equals('no budget does', sets.budgets([[1, 4, 1, 4], [1, 4, 1, 4]].map(task)).most, [{ low: 0, high: 0 }, { low: 0, high: 0 }]);
equals('half the speed', sets.speed([[0, 2, 1, 1]].map(task)), { status: 0, millionths: 500000 });
equals('twice the speed', sets.speed([[1, 4, 1, 4], [1, 4, 1, 4]].map(task)), { status: 0, millionths: 2000000 });
// At speed s the loads are those at 1 over s. Of the first set EDF-VD needs (s - 1/2)(s - 3/5) of at least 1/10, and of the second
// (s - 1/2)(s - 1) of at least 1/8: so s is at least (1.1 + sqrt 0.41)/2, and (3 + sqrt 3)/4.
equals('the speed of control', sets.speed(CONTROL), { status: 0, millionths: 870157 });
equals('the speed of a set that is not admitted', sets.speed(REFUSED), { status: 0, millionths: 1183013 });
equals('no set', sets.budgets([]), { status: 1, why: undefined });

// ---- Traps and memory ----

sets.calls = { ...sets.calls, edfvd_raw_speed: () => { throw new WebAssembly.RuntimeError('unreachable'); } };
equals('a trap', sets.speed(CONTROL), { status: STOPPED, why: 'RuntimeError: unreachable' });
equals('an answer after a trap', sets.speed([[0, 2, 1, 1]].map(task)), { status: 0, millionths: 500000 });
sets.calls = { ...sets.calls, edfvd_web_take: () => 0n };
equals('no memory', sets.budgets(CONTROL).status, OUT_OF_MEMORY);
equals('an answer after it', sets.scales(CONTROL).status, 0);
const pages = sets.calls.memory.buffer.byteLength;
for (let turn = 0; turn < 20000; turn += 1) sets.budgets(CONTROL);
equals('memory after 20000 answers', sets.calls.memory.buffer.byteLength, pages);
console.log(`sets: calls and statuses ${[...statuses].sort().map((pair) => pair.join(': ')).join(', ')}`);
ends('sets');
