// What the parts of the page share: the worker, the editors, and the number of the present round of answers.
import { Stopped } from './asking.js';
import { byId } from './elements.js';

export const page = { asker: null, editors: {}, round: 0 };

// The files have changed since the question was asked, so its answer is not wanted any more.
export class Outdated extends Error {}

// A function that asks the questions of this round of answers. It throws Outdated if another round has begun before the answer comes.
export function asksOf(round) {
    return async (kind, given) => {
        const answer = await page.asker.ask(kind, given);
        if (round !== page.round) throw new Outdated();
        return answer;
    };
}

// Shows what went wrong outside the answers, above all of them.
export function showState(words) {
    byId('state').className = 'state bad';
    byId('state').textContent = words;
}

// A handler of an event that asks a question outside the rounds of answers. If the question is cancelled, nothing comes of it.
export function handler(action) {
    return async () => {
        try {
            await action();
        } catch (error) {
            if (error instanceof Outdated || error instanceof Stopped) return;
            showState(error.message);
        }
    };
}
