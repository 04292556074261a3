// What may change in a set, by the calls for sets of numbers: each budget alone, the speed, and the scale.
import { isReadAlike, MOST_TRIED_BYTES, whyRefused } from './alike.js';
import { byId, grouped, note } from './elements.js';
import { showMargins } from './margins.js';
import { page } from './shared.js';
import { showScales } from './slider.js';
import { tasksIn } from './task_file.js';

// Why the page does not try other values of this task file, or nothing if it does.
function whyNotTried(editor, check) {
    if (!check.loads) return 'The task file is refused.';
    if (editor.isLarge() || editor.text().length > MOST_TRIED_BYTES) return `Other values are tried for task files of up to ${grouped(MOST_TRIED_BYTES)} bytes.`;
    if (!isReadAlike(editor.text(), check.loads, check.count)) return 'This page cannot find the numbers of this task file, so it tries no other values.';
    return '';
}

// Shows what the calls for sets of numbers say of the tasks of the file.
export async function showChanges(ask, check) {
    const { tasks } = page.editors;
    const refuses = (why) => ['margins', 'scales'].forEach((id) => byId(id).replaceChildren(note(why)));
    const why = whyNotTried(tasks, check);
    if (why) {
        refuses(why);
        return;
    }
    const numbers = tasksIn(tasks.text());
    const answer = await ask('changes', { numbers });
    const refused = whyRefused(answer);
    if (refused) {
        refuses(refused);
        return;
    }
    showMargins(check, numbers, answer.budgets.most, answer.speed.millionths);
    showScales(check, answer.scales.status === 0 ? answer.scales : null);
}
