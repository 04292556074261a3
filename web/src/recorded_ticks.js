// Who has each tick of a recording. Times and lengths are nanoseconds.
import { microseconds, OVERHEAD, Refused } from './recorded_events.js';

const MOST_TICKS = 10000000;

// The owners of whole ticks: for each the number of a task, or 0 for idleness; and the most of a tick that its owner did not have.
class Ticks {
    constructor(numbers, start, tickLength, count) {
        Object.assign(this, { numbers, start, tickLength, owners: new Uint8Array(count), filled: 0, mostLost: 0, shares: new Map() });
    }

    // Gives this stretch of time to a task, to idleness or to overhead.
    shareOut(name, from, until) {
        for (let begin = from; begin < until;) {
            const tick = Math.floor((begin - this.start) / this.tickLength);
            const past = begin - this.start - tick * this.tickLength;
            if (tick > this.filled) throw new Refused('tick 0: no thread is recorded on this processor');
            const whole = Math.floor((until - begin) / this.tickLength);
            if (past === 0 && whole > 0) {
                this.close(name, name === OVERHEAD ? this.tickLength : 0, whole);
                begin += whole * this.tickLength;
                continue;
            }
            const last = Math.min(until, begin - past + this.tickLength);
            this.shares.set(name, (this.shares.get(name) ?? 0) + last - begin);
            if (last === begin - past + this.tickLength) this.closeShared();
            begin = last;
        }
    }

    // Ends a tick that several had: it belongs to the task or to the idleness that had most of it, never to overhead.
    closeShared() {
        let owner = null;
        let most = 0;
        for (const [name, time] of this.shares) {
            if (name !== OVERHEAD && (time > most || (time === most && (name ?? '') > (owner ?? '')))) [owner, most] = [name, time];
        }
        this.close(owner, this.tickLength - most, 1);
        this.shares.clear();
    }

    close(owner, lost, count) {
        this.owners.fill(this.numbers.get(owner) ?? 0, this.filled, this.filled + count);
        this.filled += count;
        this.mostLost = Math.max(this.mostLost, lost);
    }
}

// The whole ticks from `start` to `end`, by the events of a recording that say who runs. `numbers` has the numbers of the tasks by name.
export function ticksOf(numbers, runs, start, end, tickLength) {
    const count = Math.floor((end - start) / tickLength);
    if (count <= 0) throw new Refused(`no whole tick of ${microseconds(tickLength)} is recorded on this processor`);
    if (count > MOST_TICKS) throw new Refused(`${count} ticks of ${microseconds(tickLength)} are recorded, at most ${MOST_TICKS} make a trace`);
    const ticks = new Ticks(numbers, start, tickLength, count);
    runs.forEach(({ time, name }, index) => {
        const next = runs[index + 1];
        ticks.shareOut(name, Math.max(time, start), next ? Math.min(next.time, end) : end);
    });
    if (ticks.filled < count) throw new Refused('tick 0: no thread is recorded on this processor');
    return ticks;
}
