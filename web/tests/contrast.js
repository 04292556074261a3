// Computes the contrast of the colours in style.css, light and dark, by the formula of WCAG 2: at least 4.5 for text, and at least 3 for
// what must be seen of controls and drawings.
import { readFileSync } from 'node:fs';
import { ends, equals, holds } from './expect.js';

const style = readFileSync(new URL('../style.css', import.meta.url), 'utf8');
const [light, dark] = [...style.matchAll(/:root \{([^}]*)\}/g)].map(([, block]) => Object.fromEntries([...block.matchAll(/--([a-z-]+): (#[0-9a-f]+)/g)].map(([, name, colour]) => [name, colour])));

function luminance(colour) {
    const letters = colour.length === 4 ? [...colour.slice(1)].map((letter) => letter + letter) : colour.slice(1).match(/../g);
    const [red, green, blue] = letters.map((pair) => parseInt(pair, 16) / 255).map((part) => (part <= 0.04045 ? part / 12.92 : ((part + 0.055) / 1.055) ** 2.4));
    return 0.2126 * red + 0.7152 * green + 0.0722 * blue;
}

function contrast(one, other) {
    const [high, low] = [luminance(one), luminance(other)].sort((first, second) => second - first);
    return (high + 0.05) / (low + 0.05);
}

equals('black on white', contrast('#000', '#ffffff'), 21);
equals('grey on white, in hundredths', Math.round(100 * contrast('#767676', '#fff')), 454);

// The colour in front, and what it is seen on.
const TEXTS = {
    ink: ['page', 'card', 'field', 'good-back', 'bad-back', 'mark'], soft: ['page', 'card', 'field', 'good-back', 'bad-back', 'note-back'],
    good: ['good-back'], bad: ['bad-back', 'card'], accent: ['page'],
};
const SIGNS = {
    edge: ['page', 'card', 'field'], accent: ['page', 'field', 'card'], good: ['field'], bad: ['page'],
    high: ['card', 'mode'], low: ['card'], over: ['card', 'mode'], sign: ['card', 'mode'], deadline: ['card', 'mode'], cross: ['card', 'mode'], lane: ['card'],
};
for (const [name, colours] of Object.entries({ light, dark })) {
    for (const [least, pairs] of [[4.5, TEXTS], [3, SIGNS]]) {
        for (const [front, backs] of Object.entries(pairs)) {
            for (const back of backs) {
                const found = contrast(colours[front], colours[back]);
                holds(`${name}: ${front} on ${back} has ${found.toFixed(2)}, at least ${least}`, found >= least);
            }
        }
    }
}
ends('contrast');
