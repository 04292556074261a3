// The signs of a drawing: releases and deadlines, ends and overruns of jobs, and jobs that were late, dropped or discarded. Each stands at
// its boundary in the lane of its task; signs of one boundary stand beside each other.
import { Fraction, written } from './fraction.js';
import { shape, tenth } from './frame.js';
import { virtualSpan } from './rule.js';
import { OUTCOMES } from './timeline.js';

// How far right of its boundary and above the ground of its lane each sign begins, and its path.
export const PATHS = {
    release: [0, 0, 'v-36m-4 6l4-6l4 6'],
    deadline: [0, 0, 'm0-36v36m-4-6l4 6l4-6'],
    late: [0, 0, 'm0-36v36m-4-6l4 6l4-6m-9-26l10 10m0-10l-10 10'],
    virtual: [0, 0, 'v-4m0-4v-4m0-4v-4l-4-7h8l-4 7'],
    done: [-1, 0, 'v-20'],
    stop: [-1, 0, 'v-20m-5 0h10'],
    over: [0, 37, 'l5-5l-5-5l-5 5z'],
    dropped: [0, 42, 'm-5-5l10 10m0-10l-10 10'],
    discarded: [0, 26, 'm-4-4l8 8m0-8l-8 8'],
};

// How many pixels a sign must have on the average, to be seen among others of its kind in its lane.
const LEAST_SIGN = { release: 9, deadline: 9, virtual: 9, late: 11, done: 7, stop: 7, over: 7, dropped: 7, discarded: 7 };

// How far a sign moves from its boundary if another sign of its lane stands at the same one.
const ASIDE = { deadline: -6, late: -6, release: 6, dropped: 6 };

// The kinds that stand above the others, and never beside them.
const ABOVE = ['dropped', 'over'];

// How far from its boundary a sign reaches at most: one that stands there alone, and one that moved aside.
export const REACH = { alone: 6, aside: 12 };

// The words of each sign: on this job and the boundary of the sign.
const WORDS = {
    release: (job, boundary) => `${job}, released at ${boundary}`,
    dropped: (job, boundary) => `${job}, dropped at ${boundary}`,
    deadline: (job, boundary) => `${job}, deadline ${boundary}`,
    late: (job, boundary) => `${job}, deadline ${boundary} missed`,
    virtual: (job, boundary) => `${job}, virtual deadline ${written(boundary)}, which counts in low mode`,
    discarded: (job, boundary) => `${job}, discarded at ${boundary}`,
    done: (job, boundary) => `${job}, done at ${boundary}`,
    stop: (job, boundary) => `${job}, stop at ${boundary}`,
    over: (job, boundary) => `${job}, over at ${boundary}`,
};

// The signs of the window as lists by kind and lane.
class Signs {
    constructor(frame, lanes) {
        Object.assign(this, { frame, lanes, lists: new Map() });
    }

    // A sign of a job at a boundary. `exact` gives the boundary as the words need it: a virtual deadline may lie between two.
    add(kind, boundary, lane, job, exact = () => boundary) {
        if (!this.frame.hasBoundary(boundary)) return;
        const key = `${kind} ${lane}`;
        if (!this.lists.has(key)) this.lists.set(key, { kind, lane, signs: [] });
        this.lists.get(key).signs.push({ boundary, words: () => WORDS[kind](`${this.lanes[lane].name} ${job}`, exact()) });
    }

    // The releases of a task, and the deadlines that they lead to. The virtual deadline of a job that is released in high mode never
    // counts: the mode is not low again before the job has ended. One that is the deadline itself, under the scale 1/1, needs no sign.
    addReleases(lane, span) {
        const { period, releases } = this.lanes[lane];
        const later = span && Number(span.over) / Number(span.under);
        const hasVirtual = span !== null && later < period;
        for (let index = releases.tick.firstAtLeast(Math.max(this.frame.begin - (period || 0), 0)); index < releases.tick.length; index += 1) {
            const [tick, job] = [releases.tick.at(index), releases.job.at(index)];
            if (tick > this.frame.end) break;
            this.add('release', tick, lane, job);
            if (!releases.isKept.at(index)) {
                this.add('dropped', tick, lane, job);
                continue;
            }
            if (period) this.add(releases.isLate.at(index) ? 'late' : 'deadline', tick + period, lane, job);
            if (hasVirtual && !releases.isInHighMode.at(index)) this.add('virtual', tick + later, lane, job, () => span.plus(new Fraction(BigInt(tick))));
        }
    }

    addDiscards({ tick, lane, job }) {
        for (let index = tick.firstAtLeast(this.frame.begin); index < tick.length && tick.at(index) <= this.frame.end; index += 1) {
            this.add('discarded', tick.at(index), lane.at(index), job.at(index));
        }
    }

    // The ends and overruns of jobs, which stand at the ends of slices. A slice that ends where the window begins is not seen; its sign is.
    addOutcomes({ begin, end, lane, job, outcome }) {
        for (let index = end.firstAtLeast(this.frame.begin); index < end.length && begin.at(index) < this.frame.end; index += 1) {
            const kind = OUTCOMES[outcome.at(index)];
            if (kind !== 'more') this.add(kind, end.at(index), lane.at(index), job.at(index));
        }
    }
}

// The signs of a timeline in the window, under the rule of its trace: a list for each kind and lane.
export function signsIn(frame, { lanes, slices, discards }, rule) {
    const signs = new Signs(frame, lanes);
    lanes.forEach((task, lane) => signs.addReleases(lane, virtualSpan(rule, task)));
    signs.addDiscards(discards);
    signs.addOutcomes(slices);
    return [...signs.lists.values()];
}

// Whether the signs of a list have room beside each other in the window.
export function haveRoom({ width, left }, { kind, signs }) {
    return signs.length * LEAST_SIGN[kind] <= width - left;
}

// The shapes of these lists of signs.
export function signShapes(frame, lists) {
    const counts = new Map();
    for (const { kind, lane, signs } of lists) {
        if (ABOVE.includes(kind)) continue;
        for (const { boundary } of signs) counts.set(`${lane} ${boundary}`, (counts.get(`${lane} ${boundary}`) ?? 0) + 1);
    }
    return lists.flatMap(({ kind, lane, signs }) => signs.map(({ boundary, words }) => {
        const [right, up, path] = PATHS[kind];
        const aside = counts.get(`${lane} ${boundary}`) > 1 ? ASIDE[kind] ?? 0 : 0;
        return shape('path', { class: kind, d: `M${tenth(frame.x(boundary) + right + aside)} ${frame.ground(lane) - up}${path}` }, words());
    }));
}
