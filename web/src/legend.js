// The legend of a drawing: what each of its signs and areas means.
import { svgElement } from './svg.js';

// The kind of each sign or area, what it means, and the path of a sign in its picture of 22 by 22.
export const LEGEND = [
    ['release', 'release', 'M11 21v-20m-4 6l4-6l4 6'], ['deadline', 'deadline', 'M11 1v20m-4-6l4 6l4-6'], ['late', 'deadline missed', 'M11 1v20m-4-6l4 6l4-6m-9-12l10 10m0-10l-10 10'],
    ['virtual', 'virtual deadline: counts in low mode', 'M11 21v-4m0-3v-4m0-3l-4-6h8l-4 6'],
    ['high', 'tick of a high task'], ['low', 'tick of a low task'], ['beyond', 'tick beyond the low budget'],
    ['over', 'overrun: not done within the low budget', 'M11 16l5-5l-5-5l-5 5z'], ['mode', 'high mode: from an overrun to the end of the first idle tick'], ['done', 'job done', 'M11 21v-20'],
    ['stop', 'job stopped at its last budget', 'M11 21v-19m-5 0h10'], ['dropped', 'release dropped, or job discarded', 'M6 6l10 10m0-10l-10 10'],
    ['illegal', 'row that does not fit'],
];

export function legend() {
    const list = document.createElement('ul');
    list.className = 'legend';
    for (const [kind, words, path] of LEGEND) {
        const item = document.createElement('li');
        const svg = svgElement({ name: 'svg', attributes: { width: 22, height: 22, viewBox: '0 0 22 22', 'aria-hidden': 'true' } });
        if (path) svg.append(svgElement({ name: 'path', attributes: { class: kind, d: path } }));
        else svg.append(svgElement({ name: 'rect', attributes: { class: kind, x: 1, y: 3, width: 20, height: 16 } }));
        item.append(svg, words);
        list.append(item);
    }
    return list;
}
