// Tries the traces that the page makes of recordings: a few by hand, and the random ones of recordings.py, which must come out as from
// tools/record/sched.py, byte for byte, refusals too. The file with these cases is the word of the call.
import { readFileSync } from 'node:fs';
import { isRecording, microseconds, nanoseconds, Refused } from '../src/recorded_events.js';
import { traceOf } from '../src/recorded_trace.js';
import { tasksIn } from '../src/task_file.js';
import { ends, equals, holds } from './expect.js';

const CONTROL = [{ name: 'ctl', level: 'high', period: 10, low: 2, high: 6 }, { name: 'log', level: 'low', period: 10, low: 5 }];

function made(tasks, switches, text, tick) {
    try {
        return traceOf(tasks, switches, text, tick);
    } catch (error) {
        if (!(error instanceof Refused)) throw error;
        return { refused: error.message };
    }
}

equals('headers', ['time,event,task\n', '\ufefftime,event,task\r\n1,run,.', '"time","event","task"\n', 'time,event\n', 'event,tick,task,job,how\n', ''].map(isRecording),
    [true, true, true, false, false, false]);
equals('times', ['7', '1.5', '0.0009', '2.', '-1', '1e3', ''].map(nanoseconds), [7000n, 1500n, 0n, null, null, null, null]);
equals('microseconds', [1000, 1500, 1858001, 10000000].map(microseconds), ['1 us', '1.5 us', '1858.001 us', '10000 us']);

// By hand: ticks of 1000 us from the release at 10. ctl has its low budget after tick 1 and overruns; it ends within tick 2.
const OVERRUN = 'time,event,task\n10,release,ctl\n10,run,ctl\n2900,end,ctl\n2910,run,.\n4010,finish,\n';
const TRACE = 'event,tick,length,task,job,how\nrelease,0,,ctl,1,kept\ntick,0,1,ctl,1,more\ntick,1,1,ctl,1,over\ntick,2,1,ctl,1,done\nidle,3,1,,,\n';
equals('an overrun', made(CONTROL, true, OVERRUN, 1000000).trace, TRACE);
equals('without two modes', made(CONTROL, false, OVERRUN, 1000000).trace, TRACE.replace('tick,0,1,ctl,1,more\ntick,1,1,ctl,1,over', 'tick,0,2,ctl,1,more'));
equals('what was moved', made(CONTROL, true, OVERRUN, 1000000).moved,
    'a tick is 1000 us, of one 100 us lost at most; moved: 1 of 3 events, by 110 us at most, the first in line 4; moved back: 0 of 1 ends');
equals('a time that is too late for the page', made(CONTROL, true, 'time,event,task\n4503599627371,run,.\n', 1000000).refused, 'line 2: 4503599627371 is later than this page can read');

// By hand, each with ticks of 10 us from the release at 0.
const tens = (...events) => made(CONTROL, true, `time,event,task\n${events.join('\n')}\n`, 10000);
const lines = (found) => (found.trace ?? found.refused).split('\n').slice(1, -1);
equals('a tick that two share alike', lines(tens('0,release,ctl', '0,release,log', '0,run,ctl', '5,run,log', '10,run,ctl', '20,finish,')),
    ['release,0,,ctl,1,kept', 'release,0,,log,1,kept', 'tick,0,1,log,1,more', 'tick,1,1,ctl,1,more']);
equals('two ends in one tick', tens('0,release,ctl', '0,run,ctl', '4,end,ctl', '5,end,ctl', '10,run,.', '20,finish,').refused, 'line 5: ctl ends and has no tick of its own since its release');
equals('a task that runs before its release', tens('0,release,ctl', '0,run,log', '10,run,ctl', '20,release,log', '30,finish,').refused, 'tick 0: log runs before its first release');
equals('a task without a tick', tens('0,release,ctl', '0,release,log', '0,run,ctl', '20,finish,').refused, 'line 3: log is released and has no tick');
equals('a job that goes on after an idle tick', lines(tens('0,release,ctl', '0,run,ctl', '20,run,.', '30,run,ctl', '50,finish,')),
    ['release,0,,ctl,1,kept', 'tick,0,1,ctl,1,more', 'tick,1,1,ctl,1,over', 'idle,2,1,,,', 'tick,3,2,ctl,1,more']);
equals('a job that is stopped', lines(tens('0,release,log', '0,run,log', '60,finish,')).slice(0, 3), ['release,0,,log,1,kept', 'tick,0,4,log,1,more', 'tick,4,1,log,1,stop']);
const EQUAL = [{ name: 'x', level: 'high', period: 10, low: 2, high: 2 }];
equals('equal budgets: the job is stopped, and does not overrun', lines(made(EQUAL, true, 'time,event,task\n0,release,x\n0,run,x\n20,run,.\n30,finish,\n', 10000)),
    ['release,0,,x,1,kept', 'tick,0,1,x,1,more', 'tick,1,1,x,1,stop', 'idle,2,1,,,']);
equals('a tick of overhead', lines(tens('0,release,log', '0,run,-', '10,run,log', '20,finish,')), ['release,0,,log,1,kept', 'idle,0,1,,,', 'tick,1,1,log,1,more']);

const cases = JSON.parse(readFileSync(process.argv[2], 'utf8'));
let traces = 0;
for (const [number, { tasks, text, tick, status, trace, says }] of cases.entries()) {
    // Each of these sets with two modes is admitted with a scale of its own: the first needs one, and the others do not.
    const read = tasksIn(tasks);
    const found = made(read, read[0].name === 'ctl', text, tick);
    if (status === 0) {
        traces += 1;
        equals(`recording ${number}`, [found.trace, found.moved], [trace, says]);
    } else {
        const wanted = says.replace('sched: ', '').replace(', which --unserved takes', '');
        const isLate = found.refused?.endsWith('is later than this page can read');
        equals(`refused recording ${number}`, isLate ? wanted.replace(/is .*/, '') : found.refused, isLate ? found.refused.replace(/is .*/, '') : wanted);
    }
}
holds('traces and refusals among the cases', traces >= cases.length / 4 && traces < cases.length);
ends('recording');
