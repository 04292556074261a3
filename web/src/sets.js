// The calls for sets of numbers as a WebAssembly module: how far each budget may go, which scales hold, and how fast the processor must be.
import { Fraction } from './fraction.js';
import { Instance } from './instance.js';

const TASK = 16;
const BUDGETS = 8;
const SCALES = 32;
const LEVELS = { low: 0, high: 1 };

// Tasks as the module reads them: level, period and two budgets, in four bytes each. A low task has its one budget twice.
function coded(tasks) {
    const bytes = new DataView(new ArrayBuffer(TASK * tasks.length));
    tasks.forEach(({ level, period, low, high }, index) => {
        [LEVELS[level], period, low, level === 'high' ? high : low].forEach((number, part) => bytes.setUint32(TASK * index + 4 * part, number, true));
    });
    return new Uint8Array(bytes.buffer);
}

export class Sets extends Instance {
    // What a call stores for these tasks: its status, 0 if it stored something, and the bytes that it stored.
    stored(call, tasks, length, ...lengths) {
        return this.called((taken) => {
            const given = this.put(coded(tasks), taken);
            const [out, refused] = [this.take(length, taken), this.take(4, taken)];
            const status = this.calls[call](given, BigInt(tasks.length), out, ...lengths, refused);
            return { status, bytes: this.bytesAt(out, length).slice() };
        });
    }

    // The greatest budgets of each task. One is 0 if the set is admitted with no such budget, and the high budget of a low task is 0.
    budgets(tasks) {
        const { status, why, bytes } = this.stored('edfvd_raw_sensitivity', tasks, BUDGETS * tasks.length, BigInt(tasks.length));
        if (status !== 0) return { status, why };
        const numbers = new DataView(bytes.buffer);
        return { status, most: tasks.map((_, index) => ({ low: numbers.getUint32(BUDGETS * index, true), high: numbers.getUint32(BUDGETS * index + 4, true) })) };
    }

    // The least and the greatest scale that hold, with status 0. A least scale of 0 is no scale itself.
    scales(tasks) {
        const { status, why, bytes } = this.stored('edfvd_raw_scales', tasks, SCALES);
        if (status !== 0) return { status, why };
        const numbers = new DataView(bytes.buffer);
        const [least, leastUnder, greatest, greatestUnder] = [0, 8, 16, 24].map((offset) => numbers.getBigUint64(offset, true));
        return { status, least: new Fraction(least, leastUnder).toString(), greatest: new Fraction(greatest, greatestUnder).toString() };
    }

    // The least speed of the processor at which the set is admitted, in millionths.
    speed(tasks) {
        const { status, why, bytes } = this.stored('edfvd_raw_speed', tasks, 8);
        return status === 0 ? { status, millionths: Number(new DataView(bytes.buffer).getBigUint64(0, true)) } : { status, why };
    }
}
