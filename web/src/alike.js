// Whether the page reads the same tasks from a task file as the proved code. The calls for sets of numbers are given what the page reads.
import { Fraction } from './fraction.js';
import { tasksIn } from './task_file.js';

export const MOST_NUMBER = 4294967295;
export const MOST_TRIED_BYTES = 65536;

// Whether the tasks in the text have the loads that `check` wrote, and are as many. `check` writes their number only if it admits the set;
// else `count` is undefined.
export function isReadAlike(text, loads, count) {
    const tasks = tasksIn(text);
    if (tasks.length !== (count ?? tasks.length) || !tasks.every(({ level }) => level === 'low' || level === 'high')) return false;
    const sums = [['low', 'low'], ['high', 'low'], ['high', 'high']].map(([level, budget]) => {
        let sum = new Fraction(0n);
        for (const task of tasks) {
            const numbers = [task.period, task.low, ...(task.level === 'high' ? [task.high] : [])];
            if (!numbers.every((number) => Number.isInteger(number) && number >= 1)) return '';
            if (task.level === level) sum = sum.plus(new Fraction(BigInt(task[budget]), BigInt(task.period)));
        }
        return sum.toString();
    });
    return sums.every((sum, index) => sum === loads[index]);
}

const NO_SCALE = 8;

// Why no other values are tried, or nothing if they are: a call for sets of numbers may refuse what the page read from the file. That no
// scale holds is an answer and no refusal.
export function whyRefused({ budgets, scales, speed }) {
    const refused = [budgets.status, scales.status === NO_SCALE ? 0 : scales.status, speed.status].find((status) => status !== 0);
    return refused === undefined ? '' : `The proved code refuses the numbers that this page reads from the task file (status ${refused}), so it tries no other values.`;
}
