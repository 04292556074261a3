// Records of a text in CSV, as the page needs them to draw a trace, to read a recording and to find a line. Whether a file is right is
// for the proved code alone to say.

// Yields the fields of each record with the first and the last line that it is on, counted from 0. Empty lines and a byte order mark
// are passed over. A quote opens a quoted field only at the start of a field.
export function* recordsIn(text) {
    let position = text.charCodeAt(0) === 0xfeff ? 1 : 0;
    let line = 0;
    let quote = text.indexOf('"', position);
    while (position < text.length) {
        if (quote >= 0 && quote < position) quote = text.indexOf('"', position);
        let end = text.indexOf('\n', position);
        if (end < 0) end = text.length;
        if (quote >= 0 && quote < end) {
            const quoted = quotedRecord(text, position);
            yield { line, last: line + quoted.breaks, fields: quoted.fields };
            line += quoted.breaks + 1;
            position = quoted.end;
            continue;
        }
        const cut = end > position && text.charCodeAt(end - 1) === 13 ? end - 1 : end;
        if (cut > position) yield { line, last: line, fields: text.slice(position, cut).split(',') };
        line += 1;
        position = end + 1;
    }
}

function quotedRecord(text, begin) {
    const fields = [''];
    let breaks = 0;
    let isQuoted = false;
    let isFresh = true;
    let position = begin;
    const add = (letters) => { fields[fields.length - 1] += letters; };
    for (; position < text.length; position += 1) {
        const letter = text[position];
        if (isQuoted) {
            if (letter === '\n') breaks += 1;
            if (letter !== '"') add(letter);
            else if (text[position + 1] === '"') add(text[(position += 1)]);
            else isQuoted = false;
        } else if (letter === '"' && isFresh) {
            isQuoted = true;
            isFresh = false;
        } else if (letter === ',') {
            fields.push('');
            isFresh = true;
        } else if (letter === '\n') {
            break;
        } else if (letter !== '\r' || text[position + 1] !== '\n') {
            add(letter);
            isFresh = false;
        }
    }
    return { fields, breaks, end: position + 1 };
}

// The line of the record with this number, where the header is record 1, or -1 if there is none.
export function lineOfRecord(text, number) {
    let record = 0;
    for (const { line } of recordsIn(text)) {
        record += 1;
        if (record === number) return line;
    }
    return -1;
}

// The text of a line, cut after this many characters.
export function lineAt(text, line, most) {
    let from = 0;
    for (let passed = 0; passed < line; passed += 1) {
        const end = text.indexOf('\n', from);
        if (end < 0) return '';
        from = end + 1;
    }
    const end = text.indexOf('\n', from);
    const whole = text.slice(from, end < 0 ? undefined : end).replace(/\r$/, '');
    return whole.length > most ? `${whole.slice(0, most)}…` : whole;
}
