// Tries the explanation of illegal rows, the late jobs and the counts on the random traces of reasons.py, of which checks/model.py says what
// is right. The file with them is the word of the call.
import { readFileSync } from 'node:fs';
import { recordsIn } from '../src/csv.js';
import { sentencesOf } from '../src/sentences.js';
import { reasonOf } from '../src/reasons.js';
import { ruleOf } from '../src/rule.js';
import { timelineOf } from '../src/timeline.js';
import { tasksIn } from '../src/task_file.js';
import { ends, equals, holds } from './expect.js';

const keyed = ({ name, key, isVirtual }) => [name, key.toString(), isVirtual];
const FACTS = {
    too_soon: ({ task, last, earliest }) => [task, last, earliest],
    wrong_count: ({ task, count }) => [task, count],
    wrong_kept: ({ task, level }) => [task, level],
    not_pending: ({ job, kind, count, boundary }) => [job, kind, count ?? boundary],
    not_least: ({ job, first }) => [keyed(job), keyed(first)],
    wrong_how: ({ job, count, words }) => [job.name, count, words],
    idle_pending: ({ first }) => [keyed(first)],
};

function lateOf({ lanes }) {
    return lanes.flatMap(({ name, releases }) => Array.from({ length: releases.tick.length }, (_, index) => index)
        .filter((index) => releases.isLate.at(index)).map((index) => `${name} ${releases.job.at(index)}`)).sort();
}

function beyondOf({ lanes, slices }) {
    const ticks = lanes.map(() => 0);
    for (let index = 0; index < slices.begin.length; index += 1) if (slices.isBeyond.at(index)) ticks[slices.lane.at(index)] += slices.end.at(index) - slices.begin.at(index);
    return ticks;
}

const seen = new Map();
for (const { tasks, trace, scale, illegal, legal } of JSON.parse(readFileSync(process.argv[2], 'utf8'))) {
    const rule = ruleOf(scale, 'rule plain');
    const found = timelineOf(tasksIn(tasks), recordsIn(trace), illegal?.row ?? 0, (before, row) => reasonOf(before, rule, illegal.why, row));
    const word = illegal ? illegal.why + (illegal.why === 'not_pending' ? ` ${illegal.facts[1]}` : '') : legal.late.length > 0 ? 'late' : 'legal';
    seen.set(word, (seen.get(word) ?? 0) + 1);
    const what = `${tasks}${scale.join('/')} ${trace}`.slice(-1500);
    if (illegal) {
        const { reason, rows: [first, last] } = found.fault;
        equals(`${word}: ${what}`, reason && [reason.isHigh, FACTS[illegal.why](reason)], [illegal.isHigh, illegal.facts]);
        holds('the row is among those of its line', first <= illegal.row && illegal.row <= last);
        holds('sentences on it', reason !== null && sentencesOf(reason).length > 0 && !sentencesOf(reason).join().includes('undefined'));
        continue;
    }
    const { late, ...counts } = found.timeline.counts();
    equals(`late jobs: ${what}`, [lateOf(found.timeline), late], [legal.late, legal.late.length]);
    equals(`counts: ${what}`, counts, legal.counts);
    equals(`ticks beyond the low budget: ${what}`, beyondOf(found.timeline), legal.beyond);
}
const WORDS = ['too_soon', 'wrong_count', 'wrong_kept', 'not_pending never', 'not_pending dropped', 'not_pending discarded', 'not_pending done', 'not_pending stop',
    'not_least', 'wrong_how', 'idle_pending', 'late', 'legal'];
for (const word of WORDS) holds(`a case of ${word}`, seen.has(word));
console.log(`reasons: ${[...seen].sort().map((pair) => pair.join(': ')).join(', ')}`);
ends('reasons of random traces');
