// The scales that hold, a slider that chooses one of them, and buttons for the least and the greatest.
import { MOST_NUMBER } from './alike.js';
import { button, byId, made } from './elements.js';
import { Fraction } from './fraction.js';
import { noScaleWords, rangeWords, scaleWords } from './scale_words.js';
import { page } from './shared.js';
import { withoutScale, withScale } from './task_edits.js';
import { documentIn } from './toml.js';

const PARTS = 1000;

const isWritable = ({ over, under }) => over > 0n && under <= BigInt(MOST_NUMBER);

// The part of the slider's length in which the scales hold. One scale alone is a line.
function bandOf(range) {
    const band = made('div', { className: 'band', ariaHidden: 'true' });
    const [from, to] = [range.least, range.greatest].map((scale) => 100 * Fraction.of(scale).toNumber());
    band.append(made('div', { className: 'holds' }));
    Object.assign(band.firstChild.style, { left: `min(${from.toFixed(2)}%, 100% - 4px)`, width: `${(to - from).toFixed(2)}%` });
    return band;
}

// Writes a scale into the task file.
function uses(scale) {
    const { tasks } = page.editors;
    tasks.set(withScale(tasks.text(), scale.over, scale.under));
}

// Buttons for the ends of the range, if a scale holds, and one if the file has a scale of its own.
function jumpsTo(range, own) {
    const { tasks } = page.editors;
    const jumps = made('div', { className: 'controls' });
    const offer = (words, text) => {
        const scale = Fraction.of(text);
        if (isWritable(scale)) jumps.append(button(`${words}, ${scale}`, () => uses(scale)));
    };
    if (range !== null && range.least === range.greatest) offer('Use it', range.least);
    else if (range !== null) [['Use the least', range.least], ['Use the greatest', range.greatest]].forEach((pair) => offer(...pair));
    if (own !== null) jumps.append(button('No scale of its own', () => tasks.set(withoutScale(tasks.text()))));
    return jumps;
}

// Shows the scales that hold, or that none does. `range` is null then.
export function showScales(check, range) {
    const { tasks } = page.editors;
    const inFile = documentIn(tasks.text()).top.values.get('scale');
    const own = inFile ? new Fraction(BigInt(inFile[0]), BigInt(inFile[1])) : null;
    const card = made('div', { className: 'card' });
    if (range === null) card.append(made('p', {}, noScaleWords(own)), jumpsTo(range, own));
    else card.append(...sliderFor(range, own ?? (check.scale ? Fraction.of(check.scale) : null), check.rule === 'plain'), jumpsTo(range, own));
    const isFocused = document.activeElement?.id === 'slider';
    byId('scales').replaceChildren(card);
    if (isFocused) byId('slider')?.focus();
}

// The slider with its words. While no scale is in use it stands at its end, and looks unused.
function sliderFor(range, scale, isPlain) {
    const slider = made('input', { id: 'slider', type: 'range', min: 1, max: PARTS, step: 1, value: scale ? Math.max(1, Math.round(PARTS * scale.toNumber())) : PARTS });
    const words = made('output', { htmlFor: 'slider' });
    const say = (chosen) => {
        slider.classList.toggle('unused', chosen === null);
        words.textContent = scaleWords(range, chosen);
        slider.setAttribute('aria-valuetext', words.textContent);
    };
    const moved = () => new Fraction(BigInt(slider.value), BigInt(PARTS));
    slider.addEventListener('input', () => say(moved()));
    slider.addEventListener('change', () => uses(moved()));
    say(scale);
    return [made('p', {}, rangeWords(range, isPlain)), made('label', { htmlFor: 'slider' }, 'Scale x '), bandOf(range), slider, made('p', {}, words),
        made('p', { className: 'hint' }, 'Moving the slider writes the scale into the task file, and check then says whether it holds.')];
}
