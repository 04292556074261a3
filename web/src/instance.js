// An instance of a WebAssembly module of proved code, and blocks of its memory for what the page passes to it.

export const OUT_OF_MEMORY = 9;
export const STOPPED = -1;
const MOST_KEPT = 1 << 28;

class OutOfMemory extends Error {}

export class Instance {
    constructor(module) {
        this.module = module;
        this.open();
    }

    open() {
        this.calls = new WebAssembly.Instance(this.module, {}).exports;
    }

    // What `action` returns, which is given a list for the blocks that it takes; they are given back. Without memory the status is
    // OUT_OF_MEMORY, and after a trap STOPPED. The module's memory never shrinks, and after a trap it may be in any state; so after a
    // large answer and after a trap a new instance is opened.
    called(action) {
        const taken = [];
        try {
            const answer = action(taken);
            for (const block of taken.reverse()) this.calls.edfvd_web_give(block);
            if (this.calls.memory.buffer.byteLength > MOST_KEPT) this.open();
            return answer;
        } catch (error) {
            this.open();
            if (error instanceof OutOfMemory) return { status: OUT_OF_MEMORY };
            if (error instanceof WebAssembly.RuntimeError || error instanceof RangeError) return { status: STOPPED, why: String(error) };
            throw error;
        }
    }

    // A block of the module's memory, which is added to those that must be given back.
    take(length, taken) {
        const block = this.calls.edfvd_web_take(BigInt(Math.max(length, 1)));
        if (block === 0n) throw new OutOfMemory();
        taken.push(block);
        return block;
    }

    put(bytes, taken) {
        const block = this.take(bytes.length, taken);
        this.bytesAt(block, bytes.length).set(bytes);
        return block;
    }

    // The bytes of a block where the memory is now. A call may move the memory.
    bytesAt(block, length) {
        return new Uint8Array(this.calls.memory.buffer, Number(block), length);
    }

    // The block as numbers, where the memory is now. A call may move the memory.
    numbersAt(block, length) {
        return new DataView(this.calls.memory.buffer, Number(block), length);
    }
}
