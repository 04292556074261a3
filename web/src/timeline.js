// A trace as the drawing needs it: who has which ticks, the releases of each task, jobs that were discarded or late, and the stretches of
// high mode. The verdict on the trace is the proved code's; what is kept here is the page's own reading.
import { columns } from './columns.js';

export const OUTCOMES = ['more', 'done', 'stop', 'over'];
const [MORE, DONE, STOP, OVER] = OUTCOMES.keys();

// The outcome of a tick by its last word. A word that is none of them is read as `more`.
const outcomeOf = (how) => Math.max(OUTCOMES.indexOf(how), MORE);

const newReleases = () => columns('tick', 'job', 'isKept', 'isLate', 'isInHighMode');

class Timeline {
    // A task of the trace that is none of these tasks of the task file gets a lane without level, period and budgets. `pending` has the
    // pending jobs of each lane by number: the index of their release, and how many ticks they have used.
    constructor(tasks) {
        this.lanes = tasks.map((task) => ({ ...task, releases: newReleases() }));
        this.laneOf = new Map(tasks.map(({ name }, lane) => [name, lane]));
        this.pending = tasks.map(() => new Map());
        this.slices = columns('begin', 'end', 'lane', 'job', 'outcome', 'isBeyond');
        this.discards = columns('tick', 'lane', 'job');
        this.modes = columns('begin', 'end', 'isEndedByIdleTick');
        this.highSince = -1;
        this.ticks = 0;
        this.records = 0;
    }

    lane(name) {
        if (!this.laneOf.has(name)) {
            this.laneOf.set(name, this.lanes.length);
            this.lanes.push({ name, releases: newReleases() });
            this.pending.push(new Map());
        }
        return this.laneOf.get(name);
    }

    release(tick, lane, job, isKept) {
        const { releases } = this.lanes[lane];
        if (isKept) this.pending[lane].set(job, { index: releases.tick.length, used: 0 });
        releases.tick.push(tick);
        releases.job.push(job);
        releases.isKept.push(Number(isKept));
        releases.isLate.push(0);
        releases.isInHighMode.push(Number(this.highSince >= 0));
    }

    // Ticks of a job, which are two slices if its low budget is used up between them.
    tick(begin, length, lane, job, outcome) {
        const end = begin + length;
        const waiting = this.pending[lane].get(job);
        const { level, low } = this.lanes[lane];
        const within = waiting && level === 'high' && low >= 1 ? Math.min(Math.max(low - waiting.used, 0), length) : length;
        if (within > 0) this.slice(begin, begin + within, lane, job, within < length ? MORE : outcome, 0);
        if (within < length) this.slice(begin + within, end, lane, job, outcome, 1);
        if (waiting) waiting.used += length;
        if (outcome === DONE || outcome === STOP) this.leave(lane, job, end);
        if (outcome === OVER) this.overrun(end);
        this.ticks = Math.max(this.ticks, end);
    }

    slice(begin, end, lane, job, outcome, isBeyond) {
        const { slices } = this;
        slices.begin.push(begin);
        slices.end.push(end);
        slices.lane.push(lane);
        slices.job.push(job);
        slices.outcome.push(outcome);
        slices.isBeyond.push(isBeyond);
    }

    overrun(tick) {
        this.pending.forEach((jobs, lane) => {
            if (this.lanes[lane].level !== 'low') return;
            for (const job of [...jobs.keys()]) {
                this.discards.tick.push(tick);
                this.discards.lane.push(lane);
                this.discards.job.push(job);
                this.leave(lane, job, tick);
            }
        });
        if (this.highSince < 0) this.highSince = tick;
    }

    // A pending job ends or is discarded at this boundary. It is late if its deadline was before.
    leave(lane, job, boundary) {
        const { period, releases } = this.lanes[lane];
        const waiting = this.pending[lane].get(job);
        if (!waiting) return;
        if (releases.tick.at(waiting.index) + period < boundary) releases.isLate.set(waiting.index, 1);
        this.pending[lane].delete(job);
    }

    // The trace ends here: a job that is pending is late if its deadline has come.
    finish() {
        this.endOfHighMode(this.ticks, false);
        this.pending.forEach((jobs, lane) => {
            const { period, releases } = this.lanes[lane];
            for (const { index } of jobs.values()) if (releases.tick.at(index) + period <= this.ticks) releases.isLate.set(index, 1);
        });
    }

    // How many jobs are late, and for each reason how many did not get all their ticks.
    counts() {
        const ofLanes = (name, wanted) => this.lanes.reduce((sum, { releases }) => sum + releases[name].count(wanted), 0);
        return { late: ofLanes('isLate', 1), dropped: ofLanes('isKept', 0), discarded: this.discards.tick.length, stopped: this.slices.outcome.count(STOP) };
    }

    idle(begin, length) {
        this.endOfHighMode(begin + 1, true);
        this.ticks = Math.max(this.ticks, begin + length);
    }

    // High mode, if it is that, is drawn up to this boundary: the end of the first idle tick, or of the trace.
    endOfHighMode(tick, isIdle) {
        if (this.highSince >= 0 && tick > this.highSince) {
            this.modes.begin.push(this.highSince);
            this.modes.end.push(tick);
            this.modes.isEndedByIdleTick.push(Number(isIdle));
        }
        this.highSince = -1;
    }
}

// The rows that a record stands for: their event, the tick and the lane of the first of them, their number, and the job and the last word.
function rowsOf(timeline, isLong, fields) {
    const event = fields[0];
    const length = event === 'release' ? 0 : isLong ? Number(fields[2]) : 1;
    const [name, job, how] = isLong ? fields.slice(3) : fields.slice(2);
    return { event, tick: Number(fields[1]), length, lane: event === 'idle' ? -1 : timeline.lane(name), job: Number(job), how };
}

// The timeline of the records of a trace of either version, and where its row of this number is, counted from 1: its line, tick, lane
// and length, the line of the header, and the first and the last row of its record. Without such a row, or with the number 0, `fault` is
// null. `reasonOf` is asked once, with the timeline of the records before and this row; its answer is the fault's `reason`.
export function timelineOf(tasks, records, row, reasonOf = () => null) {
    const timeline = new Timeline(tasks);
    let [rows, fault, header, isLong] = [0, null, -1, false];
    for (const { line, fields } of records) {
        if (header < 0) {
            isLong = fields.length === 6;
            header = line;
            continue;
        }
        const { event, tick, length, lane, job, how } = rowsOf(timeline, isLong, fields);
        const count = Math.max(length, 1);
        if (fault === null && row > rows && row <= rows + count) {
            const past = row - rows - 1;
            const reason = reasonOf(timeline, { event, lane, job, how, past });
            fault = { line, header, rows: [rows + 1, rows + count], tick: tick + past, lane, length: Math.min(length, 1), reason };
        }
        rows += count;
        timeline.records += 1;
        if (event === 'idle') timeline.idle(tick, length);
        else if (event === 'release') timeline.release(tick, lane, job, how === 'kept');
        else timeline.tick(tick, length, lane, job, outcomeOf(how));
    }
    timeline.finish();
    return { timeline, fault };
}
