// The trace of a recording: what the budgets of the task file make of its ticks, its releases and its ends.
import { Recording } from './recording.js';

const NO_TASK = 0;

// The jobs of a recording as it goes on: how many each task has had, how many ticks its latest job has used, and the mode. `ends` has the
// last ticks of the ended jobs by the number of their task, and which of them comes next.
class Jobs {
    constructor(tasks, switches, ends) {
        Object.assign(this, { tasks, switches, isHigh: false });
        this.ends = new Map([...ends].map(([number, ticks]) => [number, { ticks, next: 0 }]));
        this.counts = tasks.map(() => 0);
        this.latest = tasks.map(() => null);
    }

    // The run of a release at this tick.
    release(number, isDropped, tick) {
        this.counts[number - 1] += 1;
        const count = this.counts[number - 1];
        if (!isDropped) this.latest[number - 1] = { number, count, used: 0 };
        return { kind: isDropped ? 'dropped' : 'kept', tick, number, count, length: 0 };
    }

    // The run of equal ticks of a task or of nobody that begins with this tick. It ends at the boundary `until` at the latest.
    nextRun(number, tick, until) {
        if (number === NO_TASK) {
            this.isHigh = false;
            return { kind: 'idle', tick, number, count: 0, length: until - tick };
        }
        const job = this.latest[number - 1];
        const ends = this.ends.get(number);
        const end = ends !== undefined && ends.next < ends.ticks.length ? ends.ticks[ends.next] - tick : null;
        const kinds = this.kindsToCome(job, end);
        const kind = kinds.get(0) ?? 'more';
        const length = kinds.has(0) ? 1 : Math.min(until - tick, ...kinds.keys());
        job.used += length;
        if (kind === 'done') ends.next += 1;
        if (kind === 'over') this.isHigh = true;
        return { kind, tick, number, count: job.count, length };
    }

    // After how many more ticks of a job comes one of another kind: as recorded, or by the budgets.
    kindsToCome({ number, used }, end) {
        const { level, low, high } = this.tasks[number - 1];
        const own = high ?? low;
        const kinds = new Map();
        if (used < own) kinds.set(own - used - 1, 'stop');
        if (this.switches && !this.isHigh && level === 'high' && used < low && low < own) kinds.set(low - used - 1, 'over');
        if (end !== null) kinds.set(end, 'done');
        return kinds;
    }
}

// The runs of the trace. Each stretch of equal ticks is cut at releases, and where a job ends or has had a budget.
function* runsOf(tasks, switches, { owners, releases, ends, numbers }) {
    const jobs = new Jobs(tasks, switches, ends);
    const boundaries = [...releases.keys()].filter((boundary) => boundary < owners.length).sort((one, other) => one - other);
    let next = 0;
    for (let begin = 0; begin < owners.length;) {
        let end = begin + 1;
        while (end < owners.length && owners[end] === owners[begin]) end += 1;
        for (let tick = begin; tick < end;) {
            if (boundaries[next] === tick) {
                for (const { name, word } of releases.get(tick)) yield jobs.release(numbers.get(name), word === 'drop', tick);
                next += 1;
            }
            const run = jobs.nextRun(owners[begin], tick, Math.min(boundaries[next] ?? end, end));
            tick += run.length;
            yield run;
        }
        begin = end;
    }
}

function isOneRun(one, other) {
    return one.kind === other.kind && one.number === other.number && one.count === other.count && (one.kind === 'more' || one.kind === 'idle');
}

function lineOf(tasks, { kind, tick, number, count, length }) {
    if (kind === 'idle') return `idle,${tick},${length},,,\n`;
    const isRelease = kind === 'kept' || kind === 'dropped';
    return `${isRelease ? 'release' : 'tick'},${tick},${isRelease ? '' : length},${tasks[number - 1].name},${count},${kind}\n`;
}

// The trace of a recording with ticks of this many nanoseconds, in version 2, and a line on how far its events were moved. `switches` says
// that the rule of the set has two modes. It throws Refused for a recording that makes no trace.
export function traceOf(tasks, switches, text, tickLength) {
    const recording = new Recording(tasks, text, tickLength);
    const lines = ['event,tick,length,task,job,how\n'];
    let last = null;
    for (const run of runsOf(tasks, switches, recording)) {
        if (last !== null && isOneRun(last, run)) {
            last.length += run.length;
            continue;
        }
        if (last !== null) lines.push(lineOf(tasks, last));
        last = run;
    }
    if (last !== null) lines.push(lineOf(tasks, last));
    return { trace: lines.join(''), moved: recording.moved() };
}
