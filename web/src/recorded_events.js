// The events of a recording of one's own, a CSV text with the header `time,event,task`, as tools/record/sched.py reads it.
import { recordsIn } from './csv.js';

const MOST_TIME = 2 ** 52;
const MOST_NO_TIME = 2n ** 62n;
const HEADER = 'time,event,task';
const IDLENESS = '.';
export const OVERHEAD = '-';

// Why a recording makes no trace.
export class Refused extends Error {}

// Whether the first line of a text is the header of a recording.
export function isRecording(text) {
    return text.slice(0, 40).replace(/^\ufeff/, '').replace(/"/g, '').split(/\r?\n/, 1)[0] === HEADER;
}

// The nanoseconds in a text of microseconds, with or without a decimal point, or null.
export function nanoseconds(text) {
    const match = /^([0-9]{1,20})(?:\.([0-9]{1,20}))?$/.exec(text);
    return match ? BigInt(match[1]) * 1000n + BigInt((match[2] ?? '').padEnd(3, '0').slice(0, 3)) : null;
}

// A time in nanoseconds as a text of microseconds.
export function microseconds(time) {
    return `${(time / 1000).toFixed(3).replace(/\.?0+$/, '')} us`;
}

// The beginning of a text, with a question mark for each control character.
const cut = (text) => text.slice(0, 64).replace(/\p{C}/gu, '?');

function timeOf(text, line) {
    const exact = nanoseconds(text);
    if (exact === null || exact > MOST_NO_TIME) throw new Refused(`line ${line}: ${cut(text)} is no time`);
    const time = Number(exact);
    if (time > MOST_TIME) throw new Refused(`line ${line}: ${cut(text)} is later than this page can read`);
    return time;
}

// The event of a line: its time, its word and the name of its task; of an event without a task the name is null, and that of overhead `-`.
function eventOf(line, fields, numbers) {
    if (fields.length !== 3) throw new Refused(`line ${line}: not three fields`);
    const [text, word, task] = fields;
    const time = timeOf(text, line);
    if (word === 'finish') return { line, time, word, name: null };
    if (word === 'run' && (task === OVERHEAD || task === IDLENESS)) return { line, time, word, name: task === IDLENESS ? null : task };
    if (!['run', 'release', 'drop', 'end'].includes(word)) throw new Refused(`line ${line}: ${cut(word)} is no event`);
    if (!numbers.has(task)) throw new Refused(`line ${line}: ${word} of ${cut(task)}, which is no task`);
    return { line, time, word, name: task };
}

// The events up to the first that finishes, by kind; each is at least as late as the one before. `numbers` has the names of the tasks.
export function eventsIn(text, numbers) {
    const events = { runs: [], releases: [], ends: [], finish: null };
    let before = null;
    let isHeader = true;
    for (const { last, fields } of recordsIn(text)) {
        const line = last + 1;
        if (isHeader) {
            if (fields.join(',') !== HEADER || fields.length !== 3) throw new Refused(`line 1: the header is not ${HEADER}`);
            isHeader = false;
            continue;
        }
        const event = eventOf(line, fields, numbers);
        if (before !== null && event.time < before.time) throw new Refused(`line ${line}: its time is before that of line ${before.line}`);
        before = event;
        if (event.word === 'finish') {
            events.finish = event;
            break;
        }
        (event.word === 'run' ? events.runs : event.word === 'end' ? events.ends : events.releases).push(event);
    }
    if (isHeader) throw new Refused(`line 1: the header is not ${HEADER}`);
    return events;
}
