// The page: what is edited is asked of the proved code, and the answers are shown.
import { Asker, Stopped } from './asking.js';
import { showChanges } from './changes.js';
import { showCheck } from './check.js';
import { showDemand } from './demand.js';
import { Editor } from './editor.js';
import { badLine, byId, grouped, made } from './elements.js';
import { EXAMPLES } from './examples.js';
import { showFit } from './fit.js';
import { traceHint } from './hints.js';
import { stateOf } from './link.js';
import { hideLink, showLink } from './linking.js';
import { newWorker, openModules } from './opening.js';
import { isRecording } from './recorded_events.js';
import { showSchedule } from './schedule.js';
import { asksOf, handler, Outdated, page, showState } from './shared.js';
import { focusTab, listenToTabs, showTab, tabNow } from './tabs.js';
import { readTasks } from './task_file.js';
import { showChart } from './texts.js';
import { Unseen } from './unseen.js';
import { showVerdict } from './verdict.js';
import { View } from './view.js';
import { MOST_JOBS, workOf } from './workload.js';

const PAUSE = 120;
const PATIENCE = 300;
const FIELDS = ['ticks', 'scale', 'processors', 'tick'];
const EDITORS = ['tasks', 'work', 'trace', 'demands'];
const NO_WORK = 'task,release,need\n';
// What a file or a field holds if neither an example nor a link names it.
const FIRST_VALUES = { tasks: EXAMPLES[0].tasks, trace: '', demands: EXAMPLES.find(({ demands }) => demands !== undefined).demands, ticks: '20', scale: '', processors: '2', tick: '1000' };
// The element of the answer of each tab, in which a failure is shown too.
const ANSWER_IDS = { schedule: 'run', judge: 'verdict', fit: 'stretch', demand: 'demanded' };

const views = {};
const unseen = new Unseen();
let timer = 0;
let asked = 0;

// ---- Rounds of answers ----

// Something was changed: answers after a pause. `data-asked` and `data-answered` say whether the answers are those of what is seen.
function changed() {
    clearTimeout(timer);
    asked += 1;
    document.body.dataset.asked = String(asked);
    timer = setTimeout(() => answer(asked), PAUSE);
}

async function answer(turn) {
    page.round += 1;
    const round = page.round;
    if (page.asker.busyFor() > PATIENCE) page.asker.stop(new Outdated());
    const tab = tabNow();
    try {
        await showAnswers(tab, asksOf(round));
    } catch (error) {
        if (error instanceof Outdated || round !== page.round) return;
        if (error instanceof Stopped) views.run.clear();
        byId(ANSWER_IDS[tab]).replaceChildren(badLine(error.message));
    }
    unseen.changed(byId(tab === 'fit' ? 'check' : ANSWER_IDS[tab]));
    document.body.dataset.answered = String(turn);
}

async function showAnswers(tab, ask) {
    if (tab === 'demand') {
        await showDemand(ask);
        return;
    }
    const check = await showCheck(ask, tab === 'fit' ? null : showWhatMayChange);
    if (tab === 'schedule') await showSchedule(ask, check.isAdmitted, views.run);
    if (tab === 'judge') {
        const start = await startOf(page.editors.trace.source());
        byId('tick-part').hidden = !isRecording(start);
        await showVerdict(ask, views.judge, isRecording(start));
    }
    if (tab === 'fit') {
        await showChanges(ask, check);
        await showFit(ask);
    }
}

// The first characters of a file.
async function startOf(source) {
    const start = source.slice(0, 64);
    return new TextDecoder().decode(start instanceof Blob ? await start.arrayBuffer() : start);
}

// ---- The parts of the page ----

function choose(tab) {
    show(tab);
    changed();
}

function show(tab) {
    showTab(tab);
    for (const editor of Object.values(page.editors)) editor.shown();
    unseen.forget();
}

// Leads to the tab of what may change. The button that leads there is gone then, so the tab gets the focus.
function showWhatMayChange() {
    choose('fit');
    focusTab('fit');
}

// Puts the files and fields of an example or of a link into the page. Nothing of what was there before is left: a work file that is not
// named is filled in for the tasks, and the rest is as in the first example that shows it.
function load(state) {
    const values = { ...FIRST_VALUES, ...state };
    const texts = { ...values, work: values.work ?? workOf(readTasks(values.tasks), Number(values.ticks), false) ?? NO_WORK };
    for (const name of EDITORS) page.editors[name].set(texts[name]);
    for (const name of FIELDS) byId(name).value = texts[name];
    for (const view of Object.values(views)) view.clear();
    choose(state.tab);
}

// Fills in a work file for the tasks and the ticks that are here.
function fill(hasOverruns) {
    const tasks = readTasks(page.editors.tasks.text());
    const isKnown = tasks.length > 0;
    const text = isKnown ? workOf(tasks, Number(byId('ticks').value) || 1, hasOverruns) : null;
    if (text !== null) page.editors.work.set(text);
    else page.editors.work.refuse(isKnown ? `That would be more than ${grouped(MOST_JOBS)} jobs: fill in fewer ticks.` : 'The task file has no tasks that can be read.');
}

// Loads the files of the link by which the page was opened. A fragment that is no link of this page is reported.
function loadLink() {
    if (location.hash === '') return false;
    const state = stateOf(location.hash);
    showState(state === null ? 'The link that opened this page is damaged or too long, so an example is shown.' : '');
    if (state !== null) load(state);
    return state !== null;
}

function listen() {
    for (const name of FIELDS) byId(name).addEventListener('input', changed);
    listenToTabs(choose);
    EXAMPLES.forEach(({ name }, index) => byId('example').append(made('option', { value: index }, name)));
    byId('example').addEventListener('change', () => load(EXAMPLES[byId('example').value]));
    byId('cancel').addEventListener('click', () => page.asker.stop());
    byId('fill').addEventListener('click', () => fill(false));
    byId('fill-overrun').addEventListener('click', () => fill(true));
    byId('link').addEventListener('click', showLink);
    byId('link-close').addEventListener('click', hideLink);
    byId('to-judge').addEventListener('click', handler(takeToJudge));
    byId('chart-part').addEventListener('toggle', () => byId('chart-part').open && !byId('chart').firstChild && showChart(asksOf(page.round)).catch(() => {}));
    window.addEventListener('hashchange', loadLink);
    unseen.listen();
    // A file that is dropped beside the editors must not take the place of the page.
    for (const kind of ['dragover', 'drop']) window.addEventListener(kind, (event) => event.preventDefault());
}

async function takeToJudge() {
    const { bytes } = await page.asker.ask('bytes', { name: 'run' });
    show('judge');
    await page.editors.trace.open(new File([bytes], 'trace.csv'));
}

function watch() {
    let width = 0;
    new ResizeObserver(() => {
        if (document.body.clientWidth !== width) for (const view of Object.values(views)) view.repaint();
        width = document.body.clientWidth;
    }).observe(document.body);
    setInterval(() => {
        const time = page.asker.busyFor();
        byId('busy').hidden = time < PATIENCE;
        byId('busy-words').textContent = `Working, ${(time / 1000).toFixed(1)} s`;
    }, 100);
}

async function begin() {
    try {
        page.asker = new Asker(await openModules(), newWorker);
        byId('state').textContent = '';
        for (const name of EDITORS) page.editors[name] = new Editor(byId(name), changed);
        for (const name of ['run', 'judge']) views[name] = new View(name, byId(`${name}-drawing`));
        byId('trace-hint').append(traceHint());
        listen();
        watch();
        if (!loadLink()) load(EXAMPLES[0]);
    } catch (error) {
        showState(`The proved code cannot run here: ${error.message}`);
    }
}

begin();
