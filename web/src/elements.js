// How the page finds and makes its elements. Words of files become text and never markup.

export const byId = (id) => document.getElementById(id);

// An element with these properties and children; a child that is a string becomes a text.
export function made(name, properties = {}, ...children) {
    const element = Object.assign(document.createElement(name), properties);
    element.append(...children);
    return element;
}

export function button(words, action, properties = {}) {
    const element = made('button', { type: 'button', ...properties }, words);
    element.addEventListener('click', action);
    return element;
}

export const good = (...children) => made('div', { className: 'good verdict' }, ...children);
export const bad = (...children) => made('div', { className: 'bad verdict' }, ...children);
export const note = (...children) => made('p', { className: 'note' }, ...children);
export const badLine = (words) => made('p', { className: 'bad line' }, words);
export const grouped = (number) => Number(number).toLocaleString('en');

export function took({ took: time }) {
    return made('span', { className: 'took' }, time < 1 ? ' in less than 1 ms' : ` in ${Math.round(time)} ms`);
}

// A table of texts and elements, with a heading for each column.
export function table(heads, rows) {
    const cells = (name, row, more = {}) => row.map((cell) => made(name, more, cell));
    return made('table', {}, made('thead', {}, made('tr', {}, ...cells('th', heads, { scope: 'col' }))),
        made('tbody', {}, ...rows.map((row) => made('tr', {}, ...cells('td', row)))));
}

// Saves bytes or a text as a file of this name.
export function save(name, content, type = 'text/plain') {
    const link = made('a', { download: name, href: URL.createObjectURL(new Blob([content], { type })) });
    link.click();
    setTimeout(() => URL.revokeObjectURL(link.href), 1000);
}
