// The verdict on a trace, or on the trace of a recording, and why a row does not fit.
import { unfinished } from './counts.js';
import { bad, badLine, byId, good, grouped, made, note, took } from './elements.js';
import { nanoseconds } from './recorded_events.js';
import { refuse } from './refusal.js';
import { movedWords, rowWords, sentencesOf } from './sentences.js';
import { page } from './shared.js';
import { traceSaver } from './texts.js';

// The rule that each word of a verdict says is broken.
const WHY = {
    too_soon: 'the task’s last release is less than a period ago',
    wrong_count: 'the job’s number is not one more than the number of the task’s releases before',
    wrong_kept: 'a release is dropped exactly if its task is low and the mode is high',
    not_pending: 'only a pending job may have a tick, and this job is not pending',
    not_least: 'another pending job has a smaller key, and comes first',
    wrong_how: 'the last word is not one that the job’s budgets allow in this tick',
    idle_pending: 'a job is pending, so the tick must not be idle',
};

function lateWords({ exit, text }) {
    if (exit === 0) return 'no job is late';
    const [, count, name, number] = /^legal late (\d+) first (\S+) (\d+)$/.exec(text);
    return `${count === '1' ? 'one job is' : `${grouped(count)} jobs are`} late: ${name} ${number}${count === '1' ? '' : ' is the first'}`;
}

// Where the row that the verdict names is, what it says, and why it does not fit.
function whyIllegal({ fault, moved }, row, why) {
    if (!fault) return [made('p', {}, `${WHY[why]}.`)];
    const where = made('p', {}, made('code', {}, fault.text), ` at tick ${fault.tick}. ${rowWords(fault, row, moved !== '')}`);
    const sentences = fault.reason ? sentencesOf(fault.reason) : [];
    return [where, made('p', {}, made('code', {}, why), `: ${WHY[why]}.`), ...(sentences.length > 0 ? [made('p', { className: 'reason' }, sentences.join(' '))] : [])];
}

function verdictCard(answer) {
    const illegal = /^illegal row (\d+) (\w+)$/.exec(answer.text);
    const card = (answer.exit === 0 ? good : bad)(made('strong', {}, answer.text), took(answer));
    if (illegal) card.append(...whyIllegal(answer, Number(illegal[1]), illegal[2]));
    else card.append(made('p', {}, `Each row fits the rules, and ${lateWords(answer)}${unfinished(answer.counts)}.`));
    if (answer.moved) card.append(made('p', {}, `The recording as a trace: ${movedWords(answer.moved)}. `, traceSaver('judge', answer.shown.size)));
    return card;
}

// What is said if there is nothing to judge yet, or null.
function whyNotAsked(source, isRecorded, tickLength) {
    if ((source.size ?? source.length) === 0) return note('Paste or drop a trace or a recording, or take a trace over from the schedule.');
    if (isRecorded && !(tickLength > 0n && tickLength < 2n ** 52n)) return badLine('A tick is a number of microseconds above 0, with or without a decimal point.');
    return null;
}

export async function showVerdict(ask, view, isRecorded) {
    const { tasks, trace } = page.editors;
    const scale = byId('scale').value.trim();
    const source = trace.source();
    trace.unmark();
    const tickLength = nanoseconds(byId('tick').value.trim());
    const why = whyNotAsked(source, isRecorded, tickLength);
    if (why !== null) {
        view.clear();
        byId('verdict').replaceChildren(why);
        return;
    }
    const answer = await ask('judge', { tasks: tasks.source(), trace: source, scale: scale === '' ? [] : scale.split('/'), tickLength: Number(tickLength ?? 1n) });
    if (answer.shown) {
        if (answer.fault && !answer.moved) trace.blame(answer.fault.line);
        byId('verdict').replaceChildren(verdictCard(answer));
        await view.show(answer.shown, answer.fault && { ...answer.fault, words: answer.text });
        return;
    }
    view.clear();
    refuseTrace(answer, trace);
}

function refuseTrace(answer, trace) {
    const says = (child) => byId('verdict').replaceChildren(child);
    if (answer.exit === 2) says(badLine('A scale is p/q, with 1 ≤ p ≤ q ≤ 4,294,967,295.'));
    else if (answer.exit === 1) says(note('The set is not admitted, so it has no rule. Give a scale to judge the trace under it.'));
    else if (answer.exit === 3) says(note('The task file is refused.'));
    else if (answer.refused) {
        const line = /^line (\d+):/.exec(answer.refused);
        trace.blame(line ? Number(line[1]) - 1 : -1);
        says(badLine(`This recording makes no trace: ${answer.refused}.`));
    } else refuse('verdict', answer.text, trace);
}
