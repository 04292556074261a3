// Why the row that a verdict names does not fit: the jobs, keys and budgets that the verdict's word is about, from the rows before it. That
// the row does not fit, and which rule it breaks, is the proved code's answer; the explanation is the page's own.
import { Fraction } from './fraction.js';
import { virtualSpan } from './rule.js';
import { OUTCOMES } from './timeline.js';

const ENDS = ['done', 'stop'];

// The last index below this length of which this is so, or -1.
function lastIndex(length, isSo) {
    let index = length - 1;
    while (index >= 0 && !isSo(index)) index -= 1;
    return index;
}

// What a timeline comes to before a row: the mode, the tasks and the pending jobs with their keys.
class State {
    constructor(timeline, rule) {
        Object.assign(this, { timeline, rule });
        this.isHigh = rule.name === 'virtual' && timeline.highSince >= 0;
    }

    name(lane, job) {
        return `${this.timeline.lanes[lane].name} ${job}`;
    }

    // A pending job: its key is its deadline, or the virtual deadline of a high job in low mode.
    job(lane, job) {
        const { level, period, low, high, releases } = this.timeline.lanes[lane];
        const { index, used } = this.timeline.pending[lane].get(job);
        const release = releases.tick.at(index);
        const virtual = this.isHigh ? null : virtualSpan(this.rule, { level, period });
        const key = new Fraction(BigInt(release)).plus(virtual ?? new Fraction(BigInt(period)));
        return { name: this.name(lane, job), lane, release, used, level, low, own: high ?? low, isVirtual: virtual !== null, key };
    }

    // The pending job that comes first: that of the least key, and of equal keys that of the first task in the file.
    first() {
        let least = null;
        this.timeline.pending.forEach((jobs, lane) => {
            for (const number of jobs.keys()) {
                const job = this.job(lane, number);
                if (least === null || !least.key.isAtMost(job.key)) least = job;
            }
        });
        return least;
    }

    // What became of a job that is not pending.
    whereabouts(lane, job) {
        const { releases } = this.timeline.lanes[lane];
        const release = lastIndex(releases.tick.length, (index) => releases.job.at(index) === job);
        if (release < 0) return { kind: 'never', count: releases.tick.length };
        if (!releases.isKept.at(release)) return { kind: 'dropped', boundary: releases.tick.at(release) };
        const { slices, discards } = this.timeline;
        const discard = lastIndex(discards.tick.length, (index) => discards.lane.at(index) === lane && discards.job.at(index) === job);
        if (discard >= 0) return { kind: 'discarded', boundary: discards.tick.at(discard) };
        const outcome = (index) => OUTCOMES[slices.outcome.at(index)];
        const last = lastIndex(slices.end.length, (index) => slices.lane.at(index) === lane && slices.job.at(index) === job && ENDS.includes(outcome(index)));
        if (last < 0) throw new RangeError('this job is pending');
        return { kind: outcome(last), boundary: slices.end.at(last) };
    }
}

// The last words that fit a tick of a pending job: it may be done, or else its budgets say.
function wordsFor(state, { level, low, own }, count) {
    if (count === own) return ['done', 'stop'];
    const isOver = level === 'high' && state.rule.name === 'virtual' && !state.isHigh && count === low;
    return ['done', isOver ? 'over' : 'more'];
}

const FACTS = {
    too_soon(state, { lane }) {
        const { name, period, releases } = state.timeline.lanes[lane];
        const last = releases.tick.at(releases.tick.length - 1);
        return { task: name, last, period, earliest: last + period };
    },
    wrong_count(state, { lane }) {
        const { name, releases } = state.timeline.lanes[lane];
        return { task: name, count: releases.tick.length };
    },
    wrong_kept(state, { lane }) {
        const { name, level } = state.timeline.lanes[lane];
        return { task: name, level };
    },
    not_pending: (state, { lane, job }) => ({ job: state.name(lane, job), ...state.whereabouts(lane, job) }),
    not_least: (state, { lane, job }) => ({ job: state.job(lane, job), first: state.first() }),
    wrong_how(state, { lane, job, how, past }) {
        const given = state.job(lane, job);
        const count = given.used + past + 1;
        return { job: given, count, how, words: wordsFor(state, given, count) };
    },
    idle_pending: (state) => ({ first: state.first() }),
};

// The facts for this word of a verdict on this row, which comes after the rows of the timeline. Of a row that is not as the word says, as
// may be where the page reads a file otherwise than the proved code, there are none.
export function reasonOf(timeline, rule, why, row) {
    const state = new State(timeline, rule);
    try {
        return { why, isPlain: rule.name === 'plain', isHigh: state.isHigh, ...FACTS[why](state, row) };
    } catch {
        return null;
    }
}
