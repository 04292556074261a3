// The texts of a schedule: its report as a table, its chart, and its trace.
import { button, byId, grouped, made, save, table } from './elements.js';
import { CHART_HINT, REPORT_HINT, traceHint } from './hints.js';
import { handler, page } from './shared.js';

export const MOST_TEXT = 100000;
const MOST_CHART = 20000;

export function reportOf(text) {
    const lines = text.split('\n').map((line) => line.split(' '));
    const tasks = lines.filter(([word]) => word === 'task');
    const heads = ['task', ...tasks[0].slice(2).filter((_, index) => index % 2 === 0)];
    const rows = tasks.map(([, name, ...rest]) => [name, ...rest.filter((_, index) => index % 2 === 1)]);
    const others = lines.filter(([word]) => word !== 'task').map((line) => line.join(' ')).join(', ');
    return made('div', { className: 'scroll' }, table(heads, rows), made('p', { className: 'hint' }, others), made('p', { className: 'hint' }, REPORT_HINT));
}

// A button that saves all of a trace that the worker keeps under this name.
export function traceSaver(name, size) {
    return button('Save trace.csv', handler(async () => save('trace.csv', (await page.asker.ask('bytes', { name, most: size })).bytes)));
}

// Shows the start of a text in the element with this id, with a hint, and a button that saves all of the text.
function showText(id, text, saver, size, hint) {
    const cut = size > MOST_TEXT ? ` The first ${grouped(MOST_TEXT)} of ${grouped(size)} characters are shown.` : '';
    byId(id).replaceChildren(made('pre', { tabIndex: 0 }, text.slice(0, MOST_TEXT)), made('p', { className: 'more' }, hint), made('p', { className: 'more' }, saver, cut));
}

// Shows the trace of the schedule, which has this many bytes.
export async function showTrace(ask, size) {
    const { bytes } = await ask('bytes', { name: 'run', most: MOST_TEXT });
    showText('trace-text', new TextDecoder().decode(bytes), traceSaver('run', size), size, traceHint());
}

export async function showChart(ask) {
    if (Number(byId('ticks').value) > MOST_CHART) {
        byId('chart').replaceChildren(made('p', { className: 'more' }, `The chart is shown up to ${grouped(MOST_CHART)} ticks.`));
        return;
    }
    const { text } = await ask('chart', { name: 'run' });
    showText('chart', text, button('Save chart.txt', () => save('chart.txt', `${text}\n`)), text.length, CHART_HINT);
}
