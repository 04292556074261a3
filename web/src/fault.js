// The row at fault in a drawing.
import { LANE, shape, tenth, TOP } from './frame.js';
import { REACH } from './signs.js';

// A dashed outline of the height of the row's lane, and a line down to it, or through all lanes if the tick is idle. Neither covers a sign:
// those at the boundaries of a tick stay outside, and those at the boundary of a release inside.
export function faultShapes(frame, { tick, lane, length, words }) {
    if (tick < frame.begin || tick + length > frame.end) return [];
    const from = frame.x(tick);
    const middle = tenth(from + length * frame.perTick / 2);
    const line = (x, bottom) => shape('path', { class: 'illegal', d: `M${x} ${TOP - 10}V${bottom}` }, words);
    if (lane < 0) return [line(middle, frame.bottom)];
    const half = length === 0 ? REACH.aside : Math.max(frame.perTick / 2 - REACH.alone, 3);
    const [x, right, y] = [tenth(Math.max(middle - half, frame.left - REACH.alone)), tenth(middle + half), frame.ground(lane) - LANE + 3];
    return [line(length === 0 ? right : middle, y), shape('rect', { class: 'illegal', x, y, width: tenth(right - x), height: LANE }, words)];
}
