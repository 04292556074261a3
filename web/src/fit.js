// How far all high budgets may grow together, and a partition onto several processors.
import { loadsOf } from './check.js';
import { bad, badLine, byId, good, made, note, took } from './elements.js';
import { page } from './shared.js';

const STRETCH_HINT = 'At a percentage each high budget is rounded down to whole ticks, and is no less than the low budget.';

// The percentage at which the test still admits the set, and the loads there.
function stretchCard(stretch) {
    const lines = stretch.text.split('\n').map((line) => line.split(' '));
    const most = lines[0][1];
    const words = most === 'none' ? 'The test admits the set at no percentage of its high budgets' : `The test admits the set up to ${most} % of its high budgets`;
    const card = (most === 'none' || Number(most) < 100 ? bad : good)(made('strong', {}, words), took(stretch));
    card.append(loadsOf(lines.slice(1).map(([name, load, , percentage]) => [`${name} at ${percentage} %`, load])));
    card.append(made('p', { className: 'hint' }, STRETCH_HINT));
    return card;
}

// What is shown of a partition: its text, or why there is none.
function partitionPart({ exit, text }) {
    if (exit === 0) return made('pre', { tabIndex: 0 }, text);
    if (exit === 2) return badLine('Processors is a number from 1 to 16.');
    return exit === 12 ? badLine(text) : note(text);
}

export async function showFit(ask) {
    const { stretch, partition } = await ask('fit', { tasks: page.editors.tasks.source(), processors: byId('processors').value.trim() });
    byId('stretch').replaceChildren(stretch.exit === 0 ? stretchCard(stretch) : note(stretch.text));
    byId('partition').replaceChildren(partitionPart(partition));
}
