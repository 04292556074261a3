// How many jobs did not get all their ticks.
import { grouped } from './elements.js';

// The columns of a report, each as the sum over its tasks.
export function countsOf(report) {
    const counts = {};
    for (const [word, , ...rest] of report.split('\n').map((line) => line.split(' '))) {
        if (word !== 'task') continue;
        for (let index = 0; index < rest.length; index += 2) counts[rest[index]] = (counts[rest[index]] ?? 0) + Number(rest[index + 1]);
    }
    return counts;
}

// The end of a sentence, without its full stop: how many jobs did not get all their ticks, for each reason that there was.
export function unfinished(counts) {
    const words = ['discarded', 'dropped', 'stopped'].filter((name) => counts[name] > 0).map((name) => `${grouped(counts[name])} ${name}`);
    return words.length > 0 ? `. Not every job got all its ticks: ${words.join(', ')}` : '';
}
