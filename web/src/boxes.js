// The ticks of each lane as boxes: a box for each slice of a timeline. Boxes that are too narrow to be told apart become one.
import { BOX, shape, tenth } from './frame.js';
import { OUTCOMES } from './timeline.js';

const LEAST_BOX = 0.6;
const LEAST_BEYOND = 1.6;
const MOST_JOINED = 1.2;

// The words on one slice.
function sliceWords({ lanes, slices }, index, kind) {
    const [begin, end] = [slices.begin.at(index), slices.end.at(index)];
    const ticks = `tick ${begin}${end - begin > 1 ? ` to ${end - 1}` : ''}`;
    const outcome = OUTCOMES[slices.outcome.at(index)];
    return `${lanes[slices.lane.at(index)].name} ${slices.job.at(index)}, ${ticks}, ${outcome}${kind === 'beyond' ? ', beyond its low budget' : ''}`;
}

// The lines between the ticks of a box, where ticks are wide enough for them.
function linesIn(frame, begin, end, ground) {
    let lines = '';
    if (frame.isNarrow()) return lines;
    for (let tick = Math.max(begin, frame.begin) + 1; tick < Math.min(end, frame.end); tick += 1) lines += `M${tenth(frame.x(tick))} ${ground - BOX}v${BOX}`;
    return lines;
}

function shapesOf(frame, { kind, lane, from, to, first, joined, lines }) {
    const width = tenth(Math.max(to - from, kind === 'beyond' ? LEAST_BEYOND : LEAST_BOX));
    const words = joined > 0 ? `${first}, and ${joined} more` : first;
    const box = shape('rect', { class: kind, x: tenth(from), y: frame.ground(lane) - BOX, width, height: BOX }, words);
    return lines ? [box, shape('path', { class: 'ticks', d: lines })] : [box];
}

// The boxes of the window, in the order in which they begin.
export function boxesOf(frame, timeline) {
    const { lanes, slices } = timeline;
    const boxes = [];
    const latest = new Map();
    for (const index of frame.seen(slices)) {
        const [begin, end, lane] = [slices.begin.at(index), slices.end.at(index), slices.lane.at(index)];
        const kind = slices.isBeyond.at(index) ? 'beyond' : lanes[lane].level ?? 'low';
        const key = `${kind} ${lane}`;
        const [from, to] = [frame.x(begin), frame.x(end)];
        const before = latest.get(key);
        if (before && frame.isNarrow() && to - before.from < MOST_JOINED) {
            before.to = to;
            before.joined += 1;
            continue;
        }
        const lines = linesIn(frame, begin, end, frame.ground(lane));
        const box = { kind, lane, from, to, first: sliceWords(timeline, index, kind), joined: 0, lines };
        latest.set(key, box);
        boxes.push(box);
    }
    return boxes.flatMap((box) => shapesOf(frame, box));
}
