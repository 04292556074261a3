// Measures what a run of 1,000,000 ticks takes from the question to the drawing of its window: fewer than two seconds of the processor, so
// that other programs that run meanwhile do not count. The word of the call is the page.
import { readFileSync } from 'node:fs';
import { recordsIn } from '../src/csv.js';
import { pictureOf } from '../src/drawing.js';
import { Edfvd } from '../src/edfvd.js';
import { ruleOf } from '../src/rule.js';
import { timelineOf } from '../src/timeline.js';
import { tasksIn } from '../src/task_file.js';
import { workOf } from '../src/workload.js';
import { ends, equals, holds } from './expect.js';

const TICKS = 1000000;
const MOST_SECONDS = 2;

const module = /<script type="text\/plain" id="module">([A-Za-z0-9+/=]+)<\/script>/.exec(readFileSync(process.argv[2], 'latin1'))[1];
const edfvd = new Edfvd(new WebAssembly.Module(Buffer.from(module, 'base64')));
// Of the loads, each low budget is a twentieth of its period, and each high budget a tenth.
const tasks = [200, 250, 400, 500, 800, 1000, 2000, 2500].map((period, number) => `[[task]]\nname = "t${number}"\nlevel = "${number % 2 ? 'high' : 'low'}"\nperiod = ${period}
low = ${Math.floor(period / 20)}\n${number % 2 ? `high = ${period / 10}\n` : ''}`).join('');
const [set, work] = [tasks, workOf(tasksIn(tasks), TICKS, true)].map((text) => new TextEncoder().encode(text));
const seconds = () => { const { user, system } = process.cpuUsage(); return (user + system) / 1e6; };

const begin = seconds();
const { exit, text } = edfvd.ask(['run', '1', '2', String(TICKS)], set, work);
const run = seconds() - begin;
const said = new TextDecoder().decode(edfvd.ask(['judge', '1', '2'], set, text).text);
edfvd.ask(['report', '1', '2'], set, text);
const { timeline } = timelineOf(tasksIn(tasks), recordsIn(new TextDecoder().decode(text)), 0);
const rule = ruleOf(['1', '2'], '');
const picture = pictureOf({ timeline, rule }, 0, timeline.slices.begin.at(240), 900);
const drawn = seconds() - begin;
equals('the run', [exit, said, timeline.ticks], [0, 'legal late 0\n', TICKS]);
holds('its window', picture.shapes.length > 240);
holds(`${drawn.toFixed(2)} seconds are below ${MOST_SECONDS}`, drawn < MOST_SECONDS);
console.log(`speed: a run of a million ticks took ${run.toFixed(2)} seconds of the processor, and ${drawn.toFixed(2)} with the drawing of its window`);
ends('speed');
