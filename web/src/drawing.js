// A window of a timeline as shapes: plain data, which svg.js turns into elements. A lane for each task shows its ticks and signs; high mode
// is shaded. Ticks that are too narrow to be seen are drawn together with their neighbours, and signs that would hide each other are left
// out.
import { boxesOf } from './boxes.js';
import { faultShapes } from './fault.js';
import { Frame } from './frame.js';
import { gridOf, modesOf } from './grid.js';
import { haveRoom, signShapes, signsIn } from './signs.js';

const MOST_SENTENCES = 120;

// What the shapes show, as sentences, up to a length at which nobody listens any more.
function wordsOf(shapes) {
    const all = [...new Set(shapes.filter(({ name, title }) => name !== 'text' && title !== '').map(({ title }) => title))];
    const more = all.length > MOST_SENTENCES ? [`And ${all.length - MOST_SENTENCES} more, which are said if there are fewer ticks`] : [];
    return [...all.slice(0, MOST_SENTENCES), ...more].map((words) => `${words}.`).join(' ');
}

// The picture of the ticks from `begin` up to `end` of a trace under its rule: its size, its shapes from back to front, what they say, and
// whether each sign is shown. A fault is the row that the verdict names.
export function pictureOf({ timeline, rule }, begin, end, width, fault) {
    const frame = new Frame(timeline.lanes, begin, end, width);
    const all = signsIn(frame, timeline, rule);
    const shown = all.filter((list) => haveRoom(frame, list));
    const shapes = [...modesOf(frame, timeline.modes), ...gridOf(frame, timeline.lanes), ...boxesOf(frame, timeline),
        ...(fault ? faultShapes(frame, fault) : []), ...signShapes(frame, shown)];
    const isAllShown = shown.length === all.length;
    return { width, height: frame.bottom + 26, label: `Ticks ${begin} to ${end - 1} of the schedule`, words: wordsOf(shapes), shapes, isAllShown };
}
