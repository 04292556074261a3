// What stands behind the ticks of a drawing: a grid with the numbers of boundaries, the lanes with the names and levels of their tasks, and
// the shade of high mode.
import { LETTER, RIGHT, shape, tenth, TOP } from './frame.js';

const LEAST_MODE = 1;

// The least of 1, 2, 5, 10, 20, .. by which a span of ticks has at most this many steps.
function stepOf(span, most) {
    for (let power = 1; ; power *= 10) {
        for (const digit of [1, 2, 5]) if (span <= most * digit * power) return digit * power;
    }
}

function linesOf(frame) {
    const { begin, end, left, width, bottom } = frame;
    const shapes = [];
    const step = stepOf(end - begin, Math.max(3, Math.floor((width - left) / 62)));
    for (let boundary = Math.ceil(begin / step) * step; boundary <= end; boundary += step) {
        const x = tenth(frame.x(boundary));
        shapes.push(shape('path', { class: 'grid', d: `M${x} ${TOP}V${bottom + 4}` }));
        shapes.push(shape('text', { class: 'middle', x, y: bottom + 19 }, '', String(boundary)));
    }
    return shapes;
}

// A lane: its ground, and left of it the name and the level of its task. A name that is too long is cut, and is whole in its tooltip.
function laneOf({ left, width }, ground, { name, level }) {
    const fits = Math.max(3, Math.floor((left - 16) / LETTER));
    const cut = name.length <= fits ? name : `${name.slice(0, fits - 1)}…`;
    return [shape('path', { class: 'lane', d: `M${tenth(left)} ${ground}H${width - RIGHT}` }),
        shape('text', { class: 'right', x: tenth(left - 8), y: ground - 14 }, name, cut),
        shape('text', { class: 'right level', x: tenth(left - 8), y: ground }, '', level ?? '')];
}

export function gridOf(frame, lanes) {
    return [...linesOf(frame), ...lanes.flatMap((task, lane) => laneOf(frame, frame.ground(lane), task))];
}

// The shade of each stretch of high mode.
export function modesOf(frame, modes) {
    return [...frame.seen(modes)].map((index) => {
        const [begin, end] = [modes.begin.at(index), modes.end.at(index)];
        const x = frame.x(begin);
        const width = tenth(Math.max(frame.x(end) - x, LEAST_MODE));
        const last = modes.isEndedByIdleTick.at(index) ? `idle tick ${end - 1}` : 'trace';
        return shape('rect', { class: 'mode', x: tenth(x), y: TOP, width, height: frame.bottom - TOP }, `high mode, from the overrun at ${begin} to the end of the ${last}`);
    });
}
