// A drawing with its controls: which ticks of a kept trace are seen, and moving among them by buttons, fields and keys.
import { button, made, save } from './elements.js';
import { legend } from './legend.js';
import { page } from './shared.js';
import { svgFile, svgOf } from './svg.js';

const LEAST_WIDTH = 280;
const WIDE_TICK = 12;
const LEAST_TICKS = 20;

export class View {
    constructor(name, element) {
        this.name = name;
        this.element = element;
        this.clear();
    }

    clear() {
        this.trace = null;
        this.painted = 0;
        this.element.replaceChildren();
    }

    // Shows a trace that the worker keeps. The window stays where it was if the trace is as long as before and no fault must be seen.
    show({ ticks, first }, fault) {
        const stays = this.trace !== null && this.trace.ticks === Math.max(ticks, 1) && !fault;
        const old = this.trace;
        this.trace = { ticks: Math.max(ticks, 1), fault, begin: 0, end: 0 };
        const wide = Math.max(LEAST_TICKS, this.element.clientWidth / WIDE_TICK);
        const span = ticks <= 4 * wide ? this.trace.ticks : Math.min(first, this.trace.ticks);
        if (stays) Object.assign(this.trace, { begin: old.begin, end: old.end });
        else this.trace.end = span;
        if (fault) {
            const seen = Math.min(this.trace.ticks, Math.max(span, 10));
            this.trace.begin = Math.max(0, Math.min(fault.tick - Math.floor(seen / 2), this.trace.ticks - seen));
            this.trace.end = this.trace.begin + seen;
        }
        if (!this.canvas?.isConnected) {
            this.canvas = this.newCanvas();
            this.element.replaceChildren(this.controls(), this.canvas, legend());
        }
        return this.paint();
    }

    async paint() {
        if (this.trace === null) return;
        this.painted += 1;
        const [turn, { begin, end, fault, ticks }] = [this.painted, this.trace];
        const width = Math.max(this.canvas.clientWidth - 2, LEAST_WIDTH);
        const picture = await page.asker.ask('window', { name: this.name, begin, end, width, fault });
        if (picture === null || turn !== this.painted || this.trace === null) return;
        this.canvas.replaceChildren(svgOf(picture, this.name));
        if (!picture.isAllShown) this.canvas.append(made('p', { className: 'hint' }, 'Signs that would hide each other are not drawn: show fewer ticks to see them.'));
        const part = (name) => this.element.querySelector(`[name=${name}]`);
        part('begin').value = begin;
        part('end').value = end;
        part('back').disabled = begin === 0;
        part('on').disabled = end === ticks;
        part('all').disabled = begin === 0 && end === ticks;
    }

    // Paints again; a question that was cancelled needs no answer.
    repaint() {
        this.paint().catch(() => {});
    }

    move(begin, end) {
        const { ticks } = this.trace;
        const span = Math.min(Math.max(Math.round(end - begin) || 1, 1), ticks);
        const from = Math.min(Math.max(Math.round(begin) || 0, 0), ticks - span);
        Object.assign(this.trace, { begin: from, end: from + span });
        this.repaint();
    }

    // Moves by this part of what is seen.
    step(part) {
        const { begin, end } = this.trace;
        const by = Math.sign(part) * Math.max(1, Math.round((end - begin) * Math.abs(part)));
        this.move(begin + by, end + by);
    }

    // Shows this many times as many ticks about the middle of the window, or from the first tick on if the first one is seen.
    zoom(factor) {
        const { begin, end } = this.trace;
        const span = (end - begin) * factor;
        const from = begin === 0 ? 0 : (begin + end - span) / 2;
        this.move(from, from + span);
    }

    newCanvas() {
        const keys = {
            ArrowLeft: () => this.step(-0.5), ArrowRight: () => this.step(0.5), '+': () => this.zoom(0.5), '-': () => this.zoom(2),
            Home: () => this.move(0, this.trace.end - this.trace.begin), End: () => this.move(this.trace.ticks, this.trace.ticks + this.trace.end - this.trace.begin),
        };
        const canvas = made('div', { className: 'canvas', tabIndex: 0, role: 'group', ariaLabel: 'Drawing. Arrow keys move it, plus and minus change how many ticks it has.' });
        canvas.addEventListener('keydown', (event) => {
            if (!Object.hasOwn(keys, event.key) || event.ctrlKey || event.metaKey || event.altKey) return;
            event.preventDefault();
            keys[event.key]();
        });
        return canvas;
    }

    controls() {
        const field = (name) => {
            const input = made('input', { name, type: 'number', min: 0 });
            input.addEventListener('change', () => this.move(...['begin', 'end'].map((one) => Number(this.element.querySelector(`[name=${one}]`).value))));
            return input;
        };
        const push = (name, sign, label, action) => button(sign, action, { name, title: label, ariaLabel: label });
        return made('div', { className: 'controls' },
            made('label', {}, 'From tick ', field('begin')), made('label', {}, 'to ', field('end')),
            push('back', '◀', 'earlier', () => this.step(-0.5)), push('on', '▶', 'later', () => this.step(0.5)),
            push('in', '+', 'fewer ticks', () => this.zoom(0.5)), push('out', '−', 'more ticks', () => this.zoom(2)),
            push('all', 'All', 'all ticks', () => this.move(0, this.trace.ticks)),
            push('save', 'Save SVG', 'save this drawing', () => this.save()));
    }

    save() {
        const svg = this.canvas.querySelector('svg');
        if (svg) save('schedule.svg', svgFile(svg), 'image/svg+xml');
    }
}
