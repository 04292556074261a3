// How the tests in JavaScript say what they found. A test that failed is written, and decides the status at the end.
import { isDeepStrictEqual } from 'node:util';

let tried = 0;
let failed = 0;

export function equals(what, found, wanted) {
    tried += 1;
    if (isDeepStrictEqual(found, wanted)) return;
    failed += 1;
    console.log(`FAILED: ${what}: ${JSON.stringify(found)?.slice(0, 600)}, and ${JSON.stringify(wanted)?.slice(0, 600)} is right`);
}

export function holds(what, isSo) {
    equals(what, isSo, true);
}

export function ends(name) {
    console.log(`${name}: ${tried} tried, ${failed} failed`);
    process.exitCode = failed > 0 || tried === 0 ? 1 : 0;
}
