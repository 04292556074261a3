// A text area with line numbers, of which one line can be marked. A file can be opened or dropped here. A long file is kept as it is and
// not shown.
import { button, grouped, made, save } from './elements.js';

const LINE = 21;
const PADDING = 8;
const MOST_SHOWN = 1 << 20;

export class Editor {
    constructor(element, changed) {
        this.element = element;
        this.changed = changed;
        this.most = Number(element.dataset.most);
        this.file = null;
        this.marked = -1;
        this.numbers = made('pre', { ariaHidden: 'true' });
        this.mark = made('div', { className: 'mark', hidden: true });
        this.area = made('textarea', { rows: Number(element.dataset.rows), spellcheck: false, autocapitalize: 'off', autocomplete: 'off' });
        this.area.setAttribute('aria-labelledby', element.dataset.title);
        this.refusal = made('p', { className: 'bad line', hidden: true });
        this.refusal.setAttribute('role', 'alert');
        element.append(this.numbers, this.mark, this.area);
        element.after(this.tools(), this.refusal);
        this.area.addEventListener('input', () => this.typed());
        this.area.addEventListener('scroll', () => this.scrolled());
        new ResizeObserver(() => this.scrolled()).observe(this.area);
        this.takesDrops();
        this.shown();
    }

    tools() {
        const chooser = made('input', { type: 'file', hidden: true, ariaLabel: 'file' });
        chooser.addEventListener('change', () => {
            if (chooser.files[0]) this.open(chooser.files[0]);
            chooser.value = '';
        });
        const name = this.element.dataset.name;
        return made('div', { className: 'tools' }, chooser, button('Open…', () => chooser.click(), { ariaLabel: `Open a file in place of ${name}` }),
            button('Save', () => save(name, this.source()), { ariaLabel: `Save ${name}` }));
    }

    takesDrops() {
        const { element } = this;
        element.addEventListener('dragover', (event) => {
            event.preventDefault();
            element.classList.add('over');
        });
        element.addEventListener('dragleave', () => element.classList.remove('over'));
        element.addEventListener('drop', (event) => {
            event.preventDefault();
            element.classList.remove('over');
            const [file] = event.dataTransfer.files;
            if (file) this.open(file);
        });
    }

    // What is asked about: the file that was opened, until it is edited, or the bytes of the text.
    source() {
        return this.file ?? new TextEncoder().encode(this.area.value);
    }

    // Whether the file is too long to be shown.
    isLarge() {
        return this.file instanceof Blob;
    }

    text() {
        return this.isLarge() ? '' : this.area.value;
    }

    set(text) {
        this.refuse('');
        this.takeBytes(new TextEncoder().encode(text));
    }

    async open(file) {
        if (file.size > this.most) {
            this.refuse(`${file.name} has ${grouped(file.size)} bytes. This page takes at most ${grouped(this.most)} here.`);
            return;
        }
        this.refuse('');
        try {
            if (file.size > MOST_SHOWN) this.hold(file);
            else this.takeBytes(new Uint8Array(await file.arrayBuffer()));
        } catch (error) {
            this.refuse(`${file.name} cannot be read: ${error.message}`);
        }
    }

    // Shows bytes as a text. A text area changes line ends, and shows bytes that are no text in other letters, so such bytes are kept, too.
    takeBytes(bytes) {
        const text = new TextDecoder('utf-8', { ignoreBOM: true }).decode(bytes);
        this.show(text.includes('\r') || text.includes('\ufffd') ? bytes : null, text);
    }

    show(bytes, text) {
        this.unmark();
        this.element.querySelector('.large')?.remove();
        this.file = bytes;
        this.area.value = text;
        this.shown();
        this.changed();
    }

    hold(file) {
        this.show(file, '');
        const words = `${file.name ?? this.element.dataset.name}: ${grouped(file.size)} bytes, too long to be shown here. It is used as it is.`;
        this.element.append(made('div', { className: 'large' }, words, button('Remove it', () => this.set(''))));
    }

    typed() {
        if (this.area.value.length > MOST_SHOWN) {
            const file = new Blob([this.area.value]);
            if (file.size > this.most) {
                this.refuse(`This text has ${grouped(file.size)} bytes. This page takes at most ${grouped(this.most)} here.`);
                return;
            }
            this.hold(file);
            return;
        }
        this.refuse('');
        this.file = null;
        this.unmark();
        this.shown();
        this.changed();
    }

    refuse(words) {
        this.refusal.hidden = words === '';
        this.refusal.textContent = words;
    }

    unmark() {
        this.marked = -1;
        this.mark.hidden = true;
        this.element.classList.remove('bad');
        this.area.removeAttribute('aria-invalid');
    }

    // Marks the file as wrong, and this line of it, counted from 0, if there is one.
    blame(line) {
        this.element.classList.add('bad');
        this.area.setAttribute('aria-invalid', 'true');
        this.marked = this.isLarge() ? -1 : line;
        this.mark.hidden = this.marked < 0;
        const seen = this.area.clientHeight - 2 * PADDING;
        const top = this.marked * LINE;
        if (this.marked >= 0 && document.activeElement !== this.area && (top < this.area.scrollTop || top + LINE > this.area.scrollTop + seen)) {
            this.area.scrollTop = Math.max(0, top - seen / 2);
        }
        this.scrolled();
    }

    shown() {
        this.lines = 1;
        for (let end = this.area.value.indexOf('\n'); end >= 0; end = this.area.value.indexOf('\n', end + 1)) this.lines += 1;
        this.numbers.style.minWidth = `${Math.max(3, String(this.lines).length) + 1.4}ch`;
        this.scrolled();
    }

    // Places the numbers of the lines that are seen, and the mark, by how far the text is scrolled.
    scrolled() {
        const { scrollTop, offsetHeight } = this.area;
        const first = Math.floor(scrollTop / LINE);
        const last = Math.min(this.lines, first + Math.ceil(offsetHeight / LINE) + 1);
        this.numbers.textContent = Array.from({ length: Math.max(last - first, 0) }, (_, index) => first + index + 1).join('\n');
        this.numbers.style.height = `${offsetHeight}px`;
        this.numbers.scrollTop = scrollTop % LINE;
        const top = PADDING + this.marked * LINE - this.area.scrollTop;
        this.mark.style.top = `${top}px`;
        if (this.marked >= 0) this.mark.hidden = top < 0 || top > this.area.clientHeight - LINE;
    }
}
