// Task files with another number or another scale in them. All else in the text stays as it is.
import { documentIn } from './toml.js';

// The text with another number at this key of this task, counted from 0, or null if the key is not there.
export function withNumber(text, index, key, number) {
    const token = documentIn(text).tasks[index]?.tokens.get(key);
    return token === undefined ? null : `${text.slice(0, token.from)}${number}${text.slice(token.to)}`;
}

// The text with the scale p/q of its own.
export function withScale(text, p, q) {
    const scale = `[${p}, ${q}]`;
    const { top } = documentIn(text);
    const [version, old] = [top.tokens.get('version'), top.tokens.get('scale')];
    if (old === undefined && version === undefined) {
        const begin = text.charCodeAt(0) === 0xfeff ? 1 : 0;
        return `${text.slice(0, begin)}version = 2\nscale = ${scale}\n${text.slice(begin)}`;
    }
    const edits = [];
    if (old !== undefined) edits.push({ ...old, words: scale });
    if (version === undefined) edits.push({ from: 0, to: 0, words: 'version = 2\n' });
    else edits.push({ ...version, words: old === undefined ? `2\nscale = ${scale}` : '2' });
    return edits.sort((one, other) => other.from - one.from).reduce((left, { from, to, words }) => `${left.slice(0, from)}${words}${left.slice(to)}`, text);
}

// The text without a scale.
export function withoutScale(text) {
    const token = documentIn(text).top.tokens.get('scale');
    if (token === undefined) return text;
    const from = text.lastIndexOf('\n', token.from) + 1;
    const end = text.indexOf('\n', token.to);
    return text.slice(0, from) + (end < 0 ? '' : text.slice(end + 1));
}
