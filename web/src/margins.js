// How far each budget may go if only this one changes, with a click to try it, and how fast the processor must be.
import { button, byId, grouped, made, table } from './elements.js';
import { page } from './shared.js';
import { withNumber } from './task_edits.js';

const HEADS = ['task', 'level', 'period', 'low', 'low at most', 'high', 'high at most'];
const MARGIN_HINT = 'A click tries the number. The test admits the set with this budget and with each lower one, and with no greater one. none: no budget of the task would do.';

// Puts another number into the task file, at this key of the task with this index. The button that was clicked is made again with the
// table, and gets the focus again.
function tries(index, key, number) {
    const { tasks } = page.editors;
    tasks.set(withNumber(tasks.text(), index, key, number));
}

// What stands in the table for a budget that may grow to `most`: a button, where that is another number than now.
function limit(index, key, now, most, name) {
    if (now === undefined) return '–';
    if (most === 0) return made('span', { className: 'none' }, 'none');
    if (most === now) return made('span', {}, grouped(most));
    const change = button(grouped(most), () => tries(index, key, most), { title: `Try ${key} = ${most} for ${name}` });
    change.dataset.change = `${index} ${key}`;
    return change;
}

// How fast the processor must be, in millionths of its present speed.
function speedWords(millionths) {
    const times = `${(millionths / 1e6).toFixed(6)} times the speed`;
    if (millionths > 1e6) return `With the budgets as they are, a faster processor would do, of ${times}.`;
    return millionths < 1e6 ? `A slower processor would do, too, down to ${times}.` : 'No slower processor would do.';
}

function marginTable(tasks, most) {
    const rows = tasks.map(({ name, level, period, low, high }, index) => [name, level, grouped(period), grouped(low), limit(index, 'low', low, most[index].low, name),
        high === undefined ? '–' : grouped(high), limit(index, 'high', high, most[index].high, name)]);
    return made('div', { className: 'scroll' }, table(HEADS, rows));
}

// Shows the greatest budgets of the tasks, and the least speed of the processor.
export function showMargins(check, tasks, most, millionths) {
    const focused = document.activeElement?.dataset.change;
    const card = made('div', { className: 'card', tabIndex: -1 });
    const isNone = most.every(({ low, high }) => low === 0 && high === 0);
    if (isNone) {
        card.append(made('p', {}, `The set is not admitted, and no budget would do if only this one changes. ${speedWords(millionths)}`));
    } else {
        const words = check.isAdmitted ? 'How far each budget may go if only this one changes:' : 'The set is not admitted. It would be with one of these budgets, if only this one changes:';
        card.append(made('p', {}, words), marginTable(tasks, most), made('p', {}, speedWords(millionths)), made('p', { className: 'hint' }, MARGIN_HINT));
    }
    byId('margins').replaceChildren(card);
    if (focused) (card.querySelector(`[data-change="${focused}"]`) ?? card).focus();
}
