// A recording of one's own in whole ticks, as tools/record/sched.py makes them; checks/web.sh compares the two. No proof sees this. The
// proved code then judges the trace that recorded_trace.js makes of it.
import { eventsIn, microseconds, Refused } from './recorded_events.js';
import { ticksOf } from './recorded_ticks.js';

// `owners` has the number of the task of each tick, `releases` the events of release and drop by their boundary, and `ends` the last ticks
// of the ended jobs by the number of their task. A tick is `tickLength` nanoseconds long.
export class Recording {
    constructor(tasks, text, tickLength) {
        this.tickLength = tickLength;
        this.numbers = new Map(tasks.map(({ name }, index) => [name, index + 1]));
        const events = eventsIn(text, this.numbers);
        if (events.releases.length === 0) throw new Refused('no release is recorded');
        this.start = events.releases[0].time;
        this.moves = [];
        const ticks = ticksOf(this.numbers, events.runs, this.start, this.endOf(events), tickLength);
        this.owners = ticks.owners;
        this.mostLost = ticks.mostLost;
        this.refuseUnserved(events.releases);
        this.releases = new Map();
        for (const event of events.releases) {
            const boundary = this.boundaryOf(event);
            this.releases.set(boundary, [...(this.releases.get(boundary) ?? []), event]);
        }
        this.ends = this.lastTicks(events.ends);
        this.refuseUnreleased();
    }

    // The end of the last whole tick: at `finish`, or before the last switch.
    endOf({ finish, runs }) {
        if (finish !== null) return this.start + this.boundaryOf(finish) * this.tickLength;
        const last = runs.length > 0 ? runs[runs.length - 1].time : this.start;
        return this.start + Math.floor(Math.max(0, last - this.start) / this.tickLength) * this.tickLength;
    }

    // The boundary that is nearest to an event, which is moved there.
    boundaryOf(event) {
        const boundary = Math.floor((2 * (event.time - this.start) + this.tickLength) / (2 * this.tickLength));
        this.noteMove(event, boundary);
        return boundary;
    }

    // Notes how far an event is moved.
    noteMove({ line, word, time }, boundary) {
        this.moves.push({ line, word, by: this.start + boundary * this.tickLength - time });
    }

    refuseUnserved(released) {
        const served = new Set(this.owners);
        const unserved = released.find(({ word, name }) => word !== 'drop' && !served.has(this.numbers.get(name)));
        if (unserved) throw new Refused(`line ${unserved.line}: ${unserved.name} is released and has no tick`);
    }

    refuseUnreleased() {
        const firsts = new Map();
        for (const boundary of this.boundaries()) {
            for (const { word, name } of this.releases.get(boundary)) if (word !== 'drop' && !firsts.has(name)) firsts.set(name, boundary);
        }
        const early = [...this.numbers].map(([name, number]) => ({ name, tick: this.owners.indexOf(number) }))
            .filter(({ name, tick }) => tick >= 0 && tick < (firsts.get(name) ?? tick + 1))
            .sort((one, other) => one.tick - other.tick || (one.name < other.name ? -1 : 1));
        if (early.length > 0) throw new Refused(`tick ${early[0].tick}: ${early[0].name} runs before its first release`);
    }

    // The boundaries with releases, in order.
    boundaries() {
        return [...this.releases.keys()].sort((one, other) => one - other);
    }

    // The last ticks of the ended jobs of each task, in order; each is one since the job's release.
    lastTicks(ended) {
        const released = new Map([...this.numbers.keys()].map((name) => [name, []]));
        for (const boundary of this.boundaries()) for (const { name } of this.releases.get(boundary)) released.get(name).push(boundary);
        const found = new Map([...this.numbers.values()].map((number) => [number, []]));
        for (const event of ended) {
            const before = Math.floor((event.time - this.start) / this.tickLength);
            if (before >= this.owners.length) continue;
            const first = lastAtMost(released.get(event.name), before);
            const number = this.numbers.get(event.name);
            const last = before >= 0 ? this.owners.lastIndexOf(number, before) : -1;
            const ticks = found.get(number);
            if (last < first || ticks[ticks.length - 1] === last) throw new Refused(`line ${event.line}: ${event.name} ends and has no tick of its own since its release`);
            ticks.push(last);
            this.noteMove(event, last + 1);
        }
        return found;
    }

    // How many events were moved and how far, and how many ends were moved back.
    moved() {
        const moved = this.moves.filter(({ by }) => by !== 0);
        const ends = this.moves.filter(({ word }) => word === 'end');
        const back = ends.filter(({ by }) => by < 0);
        return `a tick is ${microseconds(this.tickLength)}, of one ${microseconds(this.mostLost)} lost at most; moved: ${moved.length} of `
            + `${this.moves.length} events${reach(moved)}; moved back: ${back.length} of ${ends.length} ends${reach(back)}`;
    }
}

// The last of these numbers, which never fall, that is at most this one; 0 if there is none.
function lastAtMost(numbers, most) {
    let [low, high] = [0, numbers.length];
    while (low < high) {
        const middle = (low + high) >>> 1;
        if (numbers[middle] <= most) low = middle + 1;
        else high = middle;
    }
    return low > 0 ? numbers[low - 1] : 0;
}

// How far these moves go, and the first line of them.
function reach(moves) {
    if (moves.length === 0) return '';
    const most = moves.reduce((far, { by }) => Math.max(far, Math.abs(by)), 0);
    const first = moves.reduce((least, { line }) => Math.min(least, line), Infinity);
    return `, by ${microseconds(most)} at most, the first in line ${first}`;
}
