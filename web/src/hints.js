// What the words and letters of a report, a chart and a trace mean.
import { made } from './elements.js';

export const REPORT_HINT = 'kept: released and not dropped · dropped: a low task’s release in high mode · discarded: a low job that an overrun ended · '
    + 'stopped: its last budget was used up · response: the most ticks from a release to the end of its job · switches: how often high mode began';

export const CHART_HINT = 'A character is a tick. # the task’s own, more to come · D its job is done · S it is stopped · O its low budget is used up: '
    + 'an overrun · . none of the task’s · (mode): L low, H high';

const TRACE_WORDS = {
    'A release is': [['kept', ''], ['dropped', 'a low task’s, in high mode']],
    'A tick ends with': [['more', 'its job goes on'], ['done', 'its job is done'], ['stop', 'not done, and its last budget is used up'],
        ['over', 'not done, and its low budget is used up: an overrun, so high mode begins']],
};

// The last words of a trace's rows, and what they mean.
export function traceHint() {
    const hint = made('span');
    for (const [begin, words] of Object.entries(TRACE_WORDS)) {
        hint.append(`${begin} `);
        words.forEach(([word, meaning], index) => hint.append(index > 0 ? ' · ' : '', made('code', {}, word), meaning && ` (${meaning})`));
        hint.append('. ');
    }
    return hint;
}
