// The TOML of a task file as the page reads it: its tables, and where in the text each value stands. Whether the file is right is for the
// proved code alone to say.

const TOKEN = /[ \t\r]+|#[^\n]*|(\n)|([[\]{}=,.])|"""\n?((?:[^\\]|\\[^])*?)"""|'''\n?([^]*?)'''|"((?:[^"\\\n]|\\.)*)"|'([^'\n]*)'|([A-Za-z0-9_+:-]+)|[^]/gy;

// The tokens with their lines, counted from 0, and where in the text they begin and end.
function tokensIn(text) {
    const tokens = [];
    let line = 0;
    for (const found of text.matchAll(TOKEN)) {
        const [whole, newline, sign, longBasic, longLiteral, basic, literal, bare] = found;
        const where = { line, from: found.index, to: found.index + whole.length };
        const written = longBasic ?? basic;
        const value = bare !== undefined ? numberOf(bare) : written !== undefined ? unescaped(written) : longLiteral ?? literal;
        if (newline) tokens.push({ kind: 'newline', ...where });
        else if (sign) tokens.push({ kind: sign, ...where });
        else if (value !== undefined) tokens.push({ kind: 'word', value, ...where });
        line += whole.split('\n').length - 1;
    }
    return tokens;
}

function numberOf(word) {
    const digits = word.replace(/_/g, '').replace(/^\+/, '');
    return /^(\d+|0x[0-9a-fA-F]+|0o[0-7]+|0b[01]+)$/.test(digits) ? Number(digits) : word;
}

function unescaped(text) {
    return text.replace(/\\(?:x([0-9a-fA-F]{2})|u([0-9a-fA-F]{4})|U(00[01][0-9a-fA-F]{5})|[ \t\r]*\n\s*|(.))/g, (whole, two, four, eight, letter) => {
        const code = parseInt(two ?? four ?? eight, 16);
        return code <= 0x10ffff ? String.fromCodePoint(code) : letter ?? '';
    });
}

// A table: the value of each key, and its token. Keys come from a file, so they are kept in maps.
class Table {
    constructor(line) {
        this.line = line;
        this.values = new Map();
        this.tokens = new Map();
    }

    set(name, token, value, last) {
        this.values.set(name, value);
        this.tokens.set(name, { line: token.line, from: last.from, to: last.to });
    }
}

function valueAt(tokens, index) {
    const token = tokens[index] ?? { kind: 'newline', line: 0, from: 0, to: 0 };
    if (token.kind !== '[' && token.kind !== '{') return { value: token.value, next: index + 1, last: token };
    const isTable = token.kind === '{';
    const all = isTable ? new Table(token.line) : [];
    let next = index + 1;
    while (next < tokens.length && tokens[next].kind !== (isTable ? '}' : ']')) {
        const { kind } = tokens[next];
        if (kind === ',' || kind === 'newline') {
            next += 1;
        } else if (isTable) {
            const found = valueAt(tokens, next + 2);
            all.set(String(tokens[next].value), tokens[next], found.value, found.last);
            next = found.next;
        } else {
            const found = valueAt(tokens, next);
            all.push(found.value);
            next = found.next;
        }
    }
    return { value: all, next: next + 1, last: { from: token.from, to: tokens[next]?.to ?? token.to } };
}

// The tables of the tasks and the table of the file itself.
export function documentIn(text) {
    const tokens = tokensIn(text);
    const tasks = [];
    const top = new Table(-1);
    let table = top;
    for (let index = 0; index < tokens.length;) {
        const token = tokens[index];
        if (token.kind === '[') {
            table = new Table(token.line);
            if (tokens[index + 1]?.kind === '[' && tokens[index + 2]?.value === 'task') tasks.push(table);
            while (index < tokens.length && tokens[index].kind !== 'newline') index += 1;
        } else if (token.kind === 'word' && tokens[index + 1]?.kind === '=') {
            const { value, next, last } = valueAt(tokens, index + 2);
            table.set(String(token.value), token, value, last);
            if (table === top && token.value === 'task' && Array.isArray(value)) tasks.push(...value.filter((one) => one instanceof Table));
            index = next;
        } else {
            index += 1;
        }
    }
    return { tasks, top };
}
