// The explanation of an illegal row in words: sentences on the facts that reasons.js finds.
import { written } from './fraction.js';

const times = (count, word) => `${count} ${word}${count === 1 ? '' : 's'}`;

function keyOf({ name, isVirtual, key }) {
    return `the ${isVirtual ? 'virtual deadline' : 'deadline'} of ${name} is ${written(key)}`;
}

const modeOf = ({ isPlain, isHigh }) => (isPlain ? '' : `, in ${isHigh ? 'high' : 'low'} mode`);

// Why a job is not pending.
const WHEREABOUTS = {
    never: ({ job, count }) => `${job} was never released: its task has had ${times(count, 'release')} so far`,
    dropped: ({ job, boundary }) => `the release of ${job} at ${boundary} was dropped, since the mode was high`,
    discarded: ({ job, boundary }) => `${job} was discarded at ${boundary} by an overrun`,
    done: ({ job, boundary }) => `${job} ended at ${boundary}: it was done with tick ${boundary - 1}`,
    stop: ({ job, boundary }) => `${job} ended at ${boundary}: it was stopped after tick ${boundary - 1}, when its budget was used up`,
};

function budgetsOf({ level, low, own }) {
    return level === 'high' ? `budgets ${low} and ${own}` : `budget ${own}`;
}

// Why the last word of a tick is the second of these words, if its job is not done.
function whyWords({ job, words: [, word], isHigh }) {
    if (word === 'stop') return 'with this tick its last budget is used up';
    if (word === 'over') return 'with this tick its low budget is used up, in low mode';
    if (job.level === 'high' && isHigh) return 'more budget is left, and in high mode no job overruns';
    return 'more budget is left';
}

const SENTENCES = {
    too_soon: ({ task, last, period, earliest }) => [`${task} was released at ${last} and has the period ${period}, so its next release is at ${earliest} or later.`],
    wrong_count: ({ task, count }) => [`${task} has been released ${times(count, 'time')} so far, so the next release is job ${count + 1}.`],
    wrong_kept({ task, level, isPlain, isHigh }) {
        if (isPlain) return ['Under plain EDF each release is kept.'];
        if (level === 'high') return [`${task} is a high task, so each of its releases is kept.`];
        return [isHigh ? `${task} is a low task and the mode is high, so the release is dropped.` : `The mode is low, so the release of ${task} is kept.`];
    },
    not_pending: (reason) => [`Here ${WHEREABOUTS[reason.kind](reason)}.`],
    not_least: (reason) => [`${reason.first.name} comes first${modeOf(reason)}: ${keyOf(reason.first)}, and ${keyOf(reason.job)}.`],
    wrong_how: (reason) => [`This is tick ${reason.count} of ${reason.job.name}, which has the ${budgetsOf(reason.job)}: ${whyWords(reason)}.`,
        `So the last word is ${reason.words[1]}, or ${reason.words[0]} if the job is done with this tick.`],
    idle_pending: ({ first }) => [`${first.name} is pending: it was released at ${first.release} and has had ${times(first.used, 'tick')}, and it comes first. So the tick is not idle.`],
};

// The sentences on a reason. A name in them is a word of a file.
export function sentencesOf(reason) {
    return SENTENCES[reason.why](reason);
}

// Where the row of this number is in the file: its line, and the rows that the line stands for. A trace that a recording makes is named,
// since the recording has lines of its own.
export function rowWords({ line, header, rows: [first, last] }, row, isOfRecording) {
    const itsLine = `line ${line + 1}${isOfRecording ? ' of the trace that the recording makes' : ''}`;
    const where = first === last ? `Row ${row} is ${itsLine}` : `Row ${row} is in ${itsLine}, which stands for the rows ${first} to ${last}`;
    return `${where}: the header in line ${header + 1} is not a row.`;
}

// The words on how far events were moved, which count lines of the recording.
export function movedWords(moved) {
    return moved.replace(/ in line \d+/g, '$& of the recording');
}
