// Asks the module of a page what cases.py asked the program: each status and each byte of the text must be the program's. The words of
// the call are the page and the file with the cases.
import { readFileSync } from 'node:fs';
import { Edfvd } from '../src/edfvd.js';
import { OUT_OF_MEMORY, STOPPED } from '../src/instance.js';
import { ends, equals, holds } from './expect.js';

const [page, file] = process.argv.slice(2);
const module = /<script type="text\/plain" id="module">([A-Za-z0-9+/=]+)<\/script>/.exec(readFileSync(page, 'latin1'))[1];
const edfvd = new Edfvd(new WebAssembly.Module(Buffer.from(module, 'base64')));
const bytes = (text) => new Uint8Array(Buffer.from(text, 'base64'));
const statuses = new Map();
let time = 0;
for (const [words, first, second, status, text] of JSON.parse(readFileSync(file, 'utf8'))) {
    const begin = performance.now();
    const answer = edfvd.ask(words, bytes(first), bytes(second));
    time += performance.now() - begin;
    statuses.set(status, (statuses.get(status) ?? 0) + 1);
    equals(`${words.join(' ')} of ${bytes(first).length} and ${bytes(second).length} bytes`, [answer.status, answer.exit, Buffer.from(answer.text ?? []).toString('base64')], [0, status, text]);
}
for (const status of [0, 1, 2, 3, 4, 5, 6, 7, 10, 11, 12]) holds(`an answer with status ${status} among the cases`, statuses.has(status));
// The program would look for files of these names. Here a name that is neither 1 nor 2 is an empty file.
for (const name of ['\u00fc', '', '3']) {
    const { status, exit, text } = edfvd.ask(['check', name], bytes(''), bytes(''));
    equals(`check of the name ${JSON.stringify(name)}`, [status, exit, Buffer.from(text).toString()], [0, 3, 'task file: no tasks\n']);
}
equals('threads are refused', edfvd.ask(['live', '1', '12']), { status: 45, exit: 0, text: new Uint8Array(0) });

// A call that traps, or that finds no memory, is followed by a new instance, which answers.
const wanted = edfvd.ask(['accept', '1', '10', '8']);
edfvd.calls = { ...edfvd.calls, edfvd_raw_ask: () => { throw new WebAssembly.RuntimeError('unreachable'); } };
equals('a trap', edfvd.ask(['accept', '1', '10', '8']), { status: STOPPED, why: 'RuntimeError: unreachable' });
equals('an answer after a trap', edfvd.ask(['accept', '1', '10', '8']), wanted);
for (const left of [0, 1, 3, 5]) {
    const { edfvd_web_take: take } = edfvd.calls;
    let taken = 0;
    edfvd.calls = { ...edfvd.calls, edfvd_web_take: (length) => (taken++ < left ? take(length) : 0n) };
    equals(`no memory after ${left} blocks`, edfvd.ask(['accept', '1', '10', '8']), { status: OUT_OF_MEMORY });
    equals(`an answer after ${left} blocks`, edfvd.ask(['accept', '1', '10', '8']), wanted);
}

// Each block is given back: the memory does not grow from answer to answer.
const pages = edfvd.calls.memory.buffer.byteLength;
for (let turn = 0; turn < 300; turn += 1) edfvd.ask(['accept', '1', '10', '8']);
equals('memory after 300 answers', edfvd.calls.memory.buffer.byteLength, pages);
console.log(`answers: statuses ${[...statuses].sort((one, other) => one[0] - other[0]).map((pair) => pair.join(': ')).join(', ')}; ${Math.round(time)} ms in the module`);
ends('answers');
