// The answer of `check`, and why a set is not admitted.
import { conditionsOf } from './conditions.js';
import { bad, badLine, button, byId, good, made, took } from './elements.js';
import { Fraction, ONE } from './fraction.js';
import { showError } from './refusal.js';
import { page } from './shared.js';
import { lineOfTaskError } from './task_file.js';

function percent(fraction) {
    return `${(100 * Fraction.of(fraction).toNumber()).toFixed(1)} %`;
}

const MEANINGS = { U_LL: 'low tasks', U_HL: 'high tasks, low budgets', U_HH: 'high tasks, high budgets' };

const RULE_HINTS = {
    virtual: 'In low mode the virtual deadline of a high job is its release + x·period; in high mode its own deadline counts.',
    plain: 'Plain EDF has no modes: a high job may use its high budget, no job overruns, and no low job is dropped or discarded. '
        + 'A scale that holds, chosen under “What may change”, gives the set virtual deadlines and modes.',
};

// A list of loads: the name of each, the fraction, the percentage, and of which tasks it is.
export function loadsOf(pairs) {
    const list = made('dl', { className: 'loads' });
    for (const [name, fraction] of pairs) {
        list.append(made('dt', {}, name), made('dd', {}, fraction), made('dd', { className: 'share' }, percent(fraction)), made('dd', { className: 'meaning' }, MEANINGS[name] ?? ''));
    }
    return list;
}

const loadHint = (words) => made('p', { className: 'hint' }, `${words}A load is the sum of budget/period.`);

function admitted(answer, lines) {
    const [[, count], ...rest] = lines;
    const rule = rest.find(([word]) => word === 'rule')[1];
    const scale = rest.find(([word]) => word === 'x')?.[1];
    const words = rule === 'virtual' ? `EDF with virtual deadlines, x\u00a0=\u00a0${scale}` : 'plain EDF';
    const card = good(made('strong', {}, `Admitted: ${words}`), took(answer));
    const unheld = rest.find(([word]) => word === 'scale');
    card.append(loadsOf(rest.slice(0, 3)), loadHint(`${count} ${count === '1' ? 'task' : 'tasks'}. `));
    card.append(made('p', { className: 'hint' }, RULE_HINTS[rule]));
    const cards = unheld ? [badLine(`${unheld.join(' ')}. It is the file’s own, so the test chooses the rule.`), card] : [card];
    return { cards, result: { isAdmitted: true, count: Number(count), loads: rest.slice(0, 3).map(([, load]) => load), rule, scale } };
}

// Why neither condition of the published test holds: two sentences with their numbers.
function failedConditions(loads) {
    const { plain, scale, virtual } = conditionsOf(...loads.map((load) => Fraction.of(load)));
    const list = made('ul', {}, made('li', {}, `Plain EDF needs U_LL + U_HH ≤ 1, and this sum is ${plain}.`));
    if (scale === null) list.append(made('li', {}, 'EDF-VD needs U_LL below 1.'));
    else if (scale.isAbove(ONE)) list.append(made('li', {}, `EDF-VD needs a scale x = U_HL/(1 − U_LL) of at most 1, and this is ${scale}.`));
    else list.append(made('li', {}, `EDF-VD needs x·U_LL + U_HH ≤ 1 with x = U_HL/(1 − U_LL) = ${scale}, and this sum is ${virtual}.`));
    return list;
}

function notAdmitted(answer, showChanges) {
    const words = answer.text.replace('not admitted: ', '').split(' ');
    const pairs = [0, 2, 4].map((begin) => words.slice(begin, begin + 2));
    const loads = pairs.map(([, load]) => load);
    const card = bad(made('strong', {}, 'Not admitted by the test'), took(answer), loadsOf(pairs), loadHint(''), failedConditions(loads));
    if (showChanges) card.append(made('p', {}, button('What would have to change?', showChanges)));
    return { cards: [card], result: { isAdmitted: false, loads } };
}

// Shows the answer of `check`, and returns what it says of the set: `loads` unless the file is refused, and `count`, the number of tasks,
// if the set is admitted. `showChanges` is the action of a button, or null where what would have to change is shown already.
export async function showCheck(ask, showChanges) {
    const { tasks } = page.editors;
    const answer = await ask('check', { tasks: tasks.source() });
    tasks.unmark();
    if (answer.exit > 1) {
        tasks.blame(lineOfTaskError(answer.text, tasks.text()));
        showError('check', answer.text);
        return { isAdmitted: false };
    }
    const lines = answer.text.split('\n').map((line) => line.split(' '));
    const { cards, result } = answer.exit === 0 ? admitted(answer, lines) : notAdmitted(answer, showChanges);
    byId('check').replaceChildren(...cards);
    return result;
}
