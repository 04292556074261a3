// The commands of the proved code as a WebAssembly module: words and two files in, a status and a text out.
import { Instance } from './instance.js';

const SHORT_BUFFER = 44;
const MOST_WORDS = 5;
const FIRST_CAPACITY = 1 << 20;
const NONE = new Uint8Array(0);

export class Edfvd extends Instance {
    // What the program answers to the words, where the file named 1 has the first bytes and the file named 2 the second. `status` is
    // that of the call: 0 if there is an answer, whose status is `exit`; otherwise it says why there is none.
    ask(words, first = NONE, second = NONE) {
        const coded = words.map((word) => new TextEncoder().encode(word));
        return this.called((taken) => this.asked(coded, first, second, taken));
    }

    // The words as the module reads them are a list of addresses and lengths. More words than a command has name no command, and no
    // words name none either.
    asked(words, first, second, taken) {
        const given = words.length > MOST_WORDS ? [] : words;
        const list = this.take(16 * MOST_WORDS, taken);
        const blocks = given.map((word) => this.put(word, taken));
        const files = [first, second].flatMap((bytes) => [this.put(bytes, taken), BigInt(bytes.length)]);
        const numbers = this.take(16, taken);
        const seen = this.numbersAt(list, 16 * MOST_WORDS);
        blocks.forEach((block, word) => {
            seen.setBigUint64(16 * word, block, true);
            seen.setBigUint64(16 * word + 8, BigInt(given[word].length), true);
        });
        return this.answered([list, BigInt(given.length), ...files], numbers, taken);
    }

    // Calls with a buffer for the text, and again with a longer one if the text does not fit.
    answered(slices, numbers, taken) {
        for (let capacity = FIRST_CAPACITY; ;) {
            const out = this.take(capacity, taken);
            const status = this.calls.edfvd_raw_ask(...slices, out, BigInt(capacity), numbers, numbers + 8n);
            const seen = this.numbersAt(numbers, 16);
            const length = Number(seen.getBigUint64(0, true));
            if (status !== SHORT_BUFFER) {
                return { status, exit: seen.getUint32(8, true), text: this.bytesAt(out, status === 0 ? length : 0).slice() };
            }
            this.calls.edfvd_web_give(taken.pop());
            capacity = length;
        }
    }
}
