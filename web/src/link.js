// The files of the page in the fragment of a link, which a browser sends to no server: JSON, in the letters of base64 that a link may have.

export const MOST_LINK = 65536;
const TEXTS = ['tasks', 'work', 'trace', 'demands', 'ticks', 'scale', 'processors', 'tick'];
const TABS = ['schedule', 'judge', 'fit', 'demand'];

// The fragment for these texts, or null if it would be too long.
export function fragmentOf(state) {
    const bytes = new TextEncoder().encode(JSON.stringify(state));
    if (bytes.length > MOST_LINK) return null;
    let letters = '';
    for (const byte of bytes) letters += String.fromCharCode(byte);
    return `#1.${btoa(letters).replaceAll('+', '-').replaceAll('/', '_').replace(/=+$/, '')}`;
}

// The texts of a fragment, or null if it is none that fragmentOf makes. A link may come from anybody: only known names are taken, only with
// texts, and only up to the length that a link may have.
export function stateOf(fragment) {
    const match = /^#1\.([A-Za-z0-9_-]*)$/.exec(fragment);
    if (!match || match[1].length > MOST_LINK * 4 / 3 + 4) return null;
    let given;
    try {
        const letters = atob(match[1].replaceAll('-', '+').replaceAll('_', '/'));
        given = JSON.parse(new TextDecoder('utf-8', { fatal: true }).decode(Uint8Array.from(letters, (letter) => letter.charCodeAt(0))));
    } catch {
        return null;
    }
    if (given === null || typeof given !== 'object' || !TABS.includes(given.tab)) return null;
    const state = { tab: given.tab };
    for (const name of TEXTS) {
        if (!Object.hasOwn(given, name)) continue;
        if (typeof given[name] !== 'string') return null;
        state[name] = given[name];
    }
    return state;
}
