// A work file for a set, as a start for one's own: each task releases a job each period.

export const MOST_JOBS = 50000;

// The text of the file, or null if it would have too many jobs. Each job needs its low budget; if there are to be overruns, the first job
// of each high task needs its high budget.
export function workOf(tasks, ticks, hasOverruns) {
    const count = tasks.reduce((sum, { period }) => sum + Math.ceil(ticks / period), 0);
    if (!(count <= MOST_JOBS)) return null;
    const jobs = tasks.flatMap(({ name, level, period, low, high }, index) => Array.from({ length: Math.ceil(ticks / period) }, (_, job) => ({
        name, index, release: job * period, need: hasOverruns && job === 0 && level === 'high' ? high : low,
    })));
    jobs.sort((one, other) => one.release - other.release || one.index - other.index);
    return `task,release,need\n${jobs.map(({ name, release, need }) => `${name},${release},${need}\n`).join('')}`;
}
