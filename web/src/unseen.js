// A bar at the foot of the window with the answer of the tab, from when the answer changes out of sight until it is seen.
import { byId } from './elements.js';

const LEAST_SEEN = 24;

// Where a block is that does not show this many pixels of itself in a window of this height: above or below, or '' if it is seen.
export function sideOf({ top, bottom }, height) {
    if (bottom < LEAST_SEEN) return 'above';
    return top > height - LEAST_SEEN ? 'below' : '';
}

export class Unseen {
    constructor() {
        this.element = null;
    }

    // The answer in this element is new, or it is that of a tab that is shown now.
    changed(element) {
        this.element = element;
        this.look();
        const isCalm = matchMedia('(prefers-reduced-motion: reduce)').matches;
        if (this.element && !isCalm) byId('unseen').animate([{ boxShadow: '0 0 0 4px currentColor' }, {}], 600);
    }

    // Another tab is shown, whose answer is still to come.
    forget() {
        this.element = null;
        byId('unseen').hidden = true;
    }

    // Shows where the answer is, or forgets it if it is seen.
    look() {
        const bar = byId('unseen');
        const answer = this.element?.firstElementChild;
        const side = answer ? sideOf(this.element.getBoundingClientRect(), innerHeight - (bar.hidden ? 0 : bar.offsetHeight)) : '';
        if (side === '') {
            this.forget();
            return;
        }
        bar.hidden = false;
        bar.className = `unseen ${answer.className}`;
        bar.textContent = `Answer ${side}: ${(answer.querySelector('strong') ?? answer).textContent}`;
    }

    // Scrolls to the answer, which gets the focus: it would be lost with the bar. After `scrollIntoView` Firefox would scroll there again
    // when the answer changes, even if the page was scrolled away meanwhile.
    go() {
        const { element } = this;
        element.tabIndex = -1;
        element.focus({ preventScroll: true });
        scrollTo(0, scrollY + element.getBoundingClientRect().top);
        this.look();
    }

    listen() {
        byId('unseen').addEventListener('click', () => this.go());
        for (const kind of ['scroll', 'resize']) window.addEventListener(kind, () => this.element && this.look(), { passive: true });
    }
}
