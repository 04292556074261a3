// The schedule of a work file: the answer, the drawing and the texts.
import { countsOf, unfinished } from './counts.js';
import { bad, badLine, byId, good, grouped, made, note, took } from './elements.js';
import { refuse } from './refusal.js';
import { page } from './shared.js';
import { reportOf, showChart, showTrace } from './texts.js';

function clear(view, ...children) {
    view.clear();
    byId('run-texts').hidden = true;
    byId('run').replaceChildren(...children);
}

// The answer in a sentence.
function scheduleCard(answer, ticks) {
    const isInTime = answer.verdict.text === 'legal late 0';
    const words = `${grouped(ticks)} ticks, ${isInTime ? 'no job is late' : answer.verdict.text}${unfinished(countsOf(answer.report.text))}`;
    return (isInTime ? good : bad)(made('strong', {}, words), took(answer));
}

export async function showSchedule(ask, isAdmitted, view) {
    const { tasks, work } = page.editors;
    work.unmark();
    if (!isAdmitted) {
        clear(view, note('There is no schedule until the task file is admitted.'));
        return;
    }
    const ticks = byId('ticks').value.trim();
    const answer = await ask('schedule', { tasks: tasks.source(), work: work.source(), ticks });
    if (answer.exit !== 0) {
        clear(view);
        if (answer.exit === 2) byId('run').replaceChildren(badLine('Ticks is a number from 1 to 1,000,000.'));
        else refuse('run', answer.text, answer.exit === 4 ? work : null);
        return;
    }
    byId('run').replaceChildren(scheduleCard(answer, ticks));
    byId('run-texts').hidden = false;
    byId('report').replaceChildren(reportOf(answer.report.text));
    await view.show(answer.shown, null);
    await showTrace(ask, answer.shown.size);
    byId('chart').replaceChildren();
    if (byId('chart-part').open) await showChart(ask);
}
