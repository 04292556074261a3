// Answers the page's questions in a thread of its own: asks the proved code, and reads, draws and marks traces. The first message has the
// modules; each other message is a question, and the questions are answered one after the other.
import { lineAt, recordsIn } from './csv.js';
import { pictureOf } from './drawing.js';
import { Edfvd } from './edfvd.js';
import { OUT_OF_MEMORY, STOPPED } from './instance.js';
import { reasonOf } from './reasons.js';
import { isRecording, Refused } from './recorded_events.js';
import { traceOf } from './recorded_trace.js';
import { ruleOf } from './rule.js';
import { Sets } from './sets.js';
import { tasksIn } from './task_file.js';
import { timelineOf } from './timeline.js';

const FIRST_WINDOW = 240;
const MOST_LINE = 120;
const LEGAL = { row: 0, why: '' };

// What is kept of the two traces that are shown: the trace of the work file under `run`, and the judged one under `judge`.
const kept = new Map();
let edfvd = null;
let sets = null;

const decoded = (bytes) => new TextDecoder('utf-8', { ignoreBOM: true }).decode(bytes);
const bytesOf = async (source) => (source instanceof Blob ? new Uint8Array(await source.arrayBuffer()) : source);

// An answer of the proved code. One that there is not becomes an error.
function called(answer) {
    if (answer.status === OUT_OF_MEMORY) throw new Error('There was not enough memory in this browser for an answer.');
    if (answer.status === STOPPED) throw new Error(`The module stopped: ${answer.why}.`);
    return answer;
}

// The answer to the words of a command, with its text.
function answered(words, first, second) {
    const begin = performance.now();
    const { status, exit, text } = called(edfvd.ask(words, first, second));
    if (status !== 0) throw new Error(`The call ended with status ${status}.`);
    return { exit, bytes: text, took: performance.now() - begin };
}

function texted({ exit, bytes, took }) {
    return { exit, text: decoded(bytes).replace(/\n$/, ''), took };
}

// Keeps a trace under a name, with its timeline, and says what the page must know to show a window of it. The verdict names a row or none.
function keep(name, tasks, trace, { row, why }, scale = []) {
    const text = decoded(trace);
    const rule = ruleOf(scale, scale.length > 0 ? '' : texted(answered(['check', '1'], tasks)).text);
    const { timeline, fault } = timelineOf(tasksIn(decoded(tasks)), recordsIn(text), row, (before, fields) => reasonOf(before, rule, why, fields));
    kept.set(name, { tasks, trace, timeline, rule });
    const { ticks, records } = timeline;
    const first = timeline.slices.begin.length > FIRST_WINDOW ? timeline.slices.begin.at(FIRST_WINDOW) : ticks;
    return { counts: timeline.counts(), shown: { ticks, records, first: Math.max(Math.min(first, ticks), 1), size: trace.length },
        fault: fault && { ...fault, text: lineAt(text, fault.line, MOST_LINE) } };
}

function keptOf(name) {
    if (!kept.has(name)) throw new Error('This trace is not here any more. Change a file to ask again.');
    return kept.get(name);
}

// The trace of a recording, and a line on how far its events were moved; or `refusal`, the answer that says why there is none.
function ofRecording(tasks, recording, tickLength) {
    const rule = texted(answered(['check', '1'], tasks));
    if (rule.exit > 1) return { refusal: { ...rule, exit: 3 } };
    try {
        const { trace, moved } = traceOf(tasksIn(decoded(tasks)), /^rule virtual$/m.test(rule.text), decoded(recording), tickLength);
        return { trace: new TextEncoder().encode(trace), moved };
    } catch (error) {
        if (!(error instanceof Refused)) throw error;
        return { refusal: { exit: 5, refused: error.message } };
    }
}

// The answer to each kind of question.
const ANSWERS = {
    check: ({ tasks }) => texted(answered(['check', '1'], tasks)),

    // The schedule of a work file, with its verdict and its report.
    schedule({ tasks, work, ticks }) {
        const run = answered(['run', '1', '2', ticks], tasks, work);
        kept.delete('run');
        if (run.exit !== 0) return texted(run);
        const verdict = texted(answered(['judge', '1', '2'], tasks, run.bytes));
        const report = texted(answered(['report', '1', '2'], tasks, run.bytes));
        return { exit: 0, took: run.took, verdict, report, ...keep('run', tasks, run.bytes, LEGAL) };
    },

    // The verdict on a trace, or on the trace of a recording with ticks of this many nanoseconds.
    judge({ tasks, trace, scale, tickLength }) {
        kept.delete('judge');
        const isRecorded = isRecording(decoded(trace.subarray(0, 64)));
        const given = isRecorded ? ofRecording(tasks, trace, tickLength) : { trace, moved: '' };
        if (given.refusal) return given.refusal;
        const answer = { ...texted(answered(['judge', '1', '2', ...scale], tasks, given.trace)), moved: given.moved };
        if (answer.exit !== 0 && answer.exit !== 6) return answer;
        const illegal = /^illegal row (\d+) (\w+)$/.exec(answer.text);
        return { ...answer, ...keep('judge', tasks, given.trace, illegal ? { row: Number(illegal[1]), why: illegal[2] } : LEGAL, scale) };
    },

    fit({ tasks, processors }) {
        return { stretch: texted(answered(['stretch', '1'], tasks)), partition: texted(answered(['partition', '1', processors], tasks)) };
    },

    demand: ({ demands }) => texted(answered(['demand', '1'], demands)),

    // What the calls for sets of numbers say of these tasks.
    changes: ({ numbers }) => ({ budgets: called(sets.budgets(numbers)), scales: called(sets.scales(numbers)), speed: called(sets.speed(numbers)) }),

    window: ({ name, begin, end, width, fault }) => (kept.has(name) ? pictureOf(kept.get(name), begin, end, width, fault) : null),

    chart({ name }) {
        const { tasks, trace } = keptOf(name);
        return texted(answered(['chart', '1', '2'], tasks, trace));
    },

    // The bytes of a kept trace: all of them, or the first ones.
    bytes: ({ name, most }) => ({ bytes: keptOf(name).trace.slice(0, most) }),
};

async function answer({ number, kind, ...given }) {
    try {
        for (const name of ['tasks', 'work', 'trace', 'demands']) if (name in given) given[name] = await bytesOf(given[name]);
        self.postMessage({ number, answer: await ANSWERS[kind](given) });
    } catch (error) {
        const isTooMuch = error instanceof RangeError || error.name === 'NotReadableError';
        self.postMessage({ number, error: isTooMuch ? `This browser cannot do this: ${error.message}.` : error.message });
    }
}

let last = Promise.resolve();

self.onmessage = ({ data }) => {
    if (data.modules) {
        edfvd = new Edfvd(data.modules.module);
        sets = new Sets(data.modules.sets);
    } else {
        last = last.then(() => answer(data));
    }
};
