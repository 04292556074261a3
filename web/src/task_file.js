// What the page reads of a task file: its tasks, and the line of an error message. Whether the file is right, and what its set is, is for
// the proved code alone to say.
import { documentIn } from './toml.js';

// The tasks of a task file: name, level, period and budgets. A low task has no high budget.
export function tasksIn(text) {
    return documentIn(text).tasks.map(({ values }) => ({
        name: String(values.get('name') ?? ''), level: values.get('level'), period: values.get('period'), low: values.get('low'), high: values.get('high'),
    }));
}

// The tasks of a task file if the numbers of all of them can be read, or none.
export function readTasks(text) {
    const tasks = tasksIn(text);
    return tasks.every(({ period, low }) => period >= 1 && low >= 1) ? tasks : [];
}

// The keys in the order in which an error message that names two of them is about the first.
const KEYS = ['high', 'period', 'level', 'low', 'name', 'scale', 'version'];

// The line, counted from 0, that an error message about a task file speaks of, or -1.
export function lineOfTaskError(message, text) {
    const found = /^task file: (?:tasks? (?:\d+ and )?(\d+)(?:: | ))?(.*)$/.exec(message);
    if (!found) return -1;
    const [, number, why] = found;
    const { tasks, top } = documentIn(text);
    const table = number === undefined || number === '0' ? top : tasks[Number(number) - 1];
    if (table === undefined) return -1;
    const unknown = /^unknown key (.*)$/.exec(why);
    const key = unknown ? unknown[1] : KEYS.find((name) => why.includes(name));
    return table.tokens.get(key)?.line ?? table.line;
}
