// What to do about an error message on a file, for a reader who has this page alone. The message is the proved code's.

const KEYS_OF_TASK = 'A task has a name, a level, a period and the budget low. A high task has the budget high, too.';

const ADVICE = [
    [/^task file: not TOML$/, 'A task begins with a line [[task]]. Each line below it is a key, an equals sign and a value, such as name = "ctl" or period = 10; names and levels stand in quotes.'],
    [/^task file: unknown key /, 'The keys of a task stand below its [[task]]. Above the first [[task]] there may be only version = 2 and then scale = [p, q].'],
    [/^task file: unknown version$/, 'The version is 1 or 2. Only a file with a scale needs it: version = 2.'],
    [/^task file: task 0: (wrong kind of|out of range) scale$/, 'A scale is written scale = [p, q], with whole numbers 1 ≤ p ≤ q ≤ 4,294,967,295.'],
    [/^task file: (no tasks|task \d+: wrong kind of task)$/, `Each task begins with a line [[task]], with two brackets on each side. ${KEYS_OF_TASK}`],
    [/^task file: task \d+: unknown key /, `${KEYS_OF_TASK} Its deadline is its period; there are others under “Shorter deadlines”.`],
    [/^task file: task \d+: missing key high$/, 'A high task has two budgets: low, and high for a job that needs more.'],
    [/^task file: task \d+: missing key /, KEYS_OF_TASK],
    [/^task file: task \d+: wrong kind of (name|level)$/, 'Names and levels stand in quotes.'],
    [/^task file: task \d+: wrong kind of (period|low|high)$/, 'Periods and budgets are whole numbers of ticks, without quotes and without a point.'],
    [/^task file: task \d+: bad name$/, 'A name has 1 to 32 characters: the letters a to z and A to Z, digits, _ and -. It has no space.'],
    [/^task file: task \d+: out of range level$/, 'The level is "low" or "high".'],
    [/^task file: task \d+: out of range (period|low|high)$/, 'Periods and budgets are from 1 to 4,294,967,295 ticks.'],
    [/^task file: task \d+: high budget on a low task$/, 'A low task has one budget, low. Take out its high budget, or make its level high.'],
    [/^task file: task \d+: high budget below low budget$/, 'The high budget of a task is at least its low budget.'],
    [/^task file: tasks \d+ and \d+ have one name$/, 'Each task has a name of its own.'],
    [/^task file: task \d+: periods out of range$/, 'The least common multiple of the periods may be at most 2^60. It is small if the periods divide each other, as 10, 20 and 100 do.'],
    [/^work file line \d+: header is not task,release,need$/, 'The first line is task,release,need. “Fill in” writes a work file for the set.'],
    [/^work file line \d+: not three fields$/, 'A line has three fields with commas between them: a task, the tick of its release, and its need.'],
    [/^work file line \d+: unknown task$/, 'The task file has no task of this name. “Fill in” writes a work file for its tasks.'],
    [/^work file line \d+: bad number$/, 'Releases and needs are whole numbers of at most 4,294,967,295, written in digits alone.'],
    [/^work file line \d+: need is 0$/, 'A job needs at least one tick.'],
    [/^work file line \d+: release before the last one$/, 'The lines stand in the order of their releases.'],
    [/^work file line \d+: too soon, next \d+$/, 'Two releases of a task are at least its period apart.'],
    [/^trace line \d+: header is of no trace version$/, 'The first line is event,tick,task,job,how, or event,tick,length,task,job,how if a line may stand for several ticks. That of a recording is time,event,task.'],
    [/^trace line \d+: not (five|six) fields$/, 'Each line has as many fields as the header. Fields without words are empty, as in idle,6,,, of five fields and idle,6,4,,, of six.'],
    [/^trace line \d+: unknown event$/, 'The first word is release, tick or idle. The last word is kept or dropped for a release; more, done, stop or over for a tick of a job; and empty for an idle tick.'],
    [/^trace line \d+: unknown task$/, 'The task file has no task of this name.'],
    [/^trace line \d+: bad number$/, 'Ticks, lengths and the numbers of jobs are whole numbers, written in digits alone. Jobs are counted from 1.'],
    [/^trace line \d+: wrong tick$/, 'Ticks are numbered from 0 on without a gap, idle ones too; a line of several ticks has the number of its first. A release has the number of the tick after it.'],
    [/^trace line \d+: bad length$/, 'A length is at least 1. A tick that is done, stop or over has a line of its own, with the length 1.'],
    [/^demand file line \d+: header is not task,period,deadline,budget$/, 'The first line is task,period,deadline,budget. Each other line is a task, without a level.'],
    [/^demand file line \d+: not four fields$/, 'A line has four fields with commas between them: a task, its period, its deadline and its budget.'],
    [/^demand file line \d+: deadline after period$/, 'A deadline is counted from the release, and is at most the period.'],
    [/^demand file line \d+: periods out of range$/, 'The least common multiple of the periods may be at most 500,000.'],
];

// A sentence or two on this error message, or nothing if there is no more to say.
export function adviceOn(message) {
    const found = ADVICE.find(([about]) => about.test(message));
    return found === undefined ? '' : found[1];
}
