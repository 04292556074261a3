// Where a window of a timeline stands in its picture: the boundaries of its ticks from left to right, and the lanes of its tasks from top
// to bottom.

export const LANE = 52;
export const BOX = 20;
export const TOP = 14;
export const RIGHT = 30;
export const LETTER = 7.4;

// Ticks that are narrower than this many pixels are drawn together with their neighbours.
const LEAST_TICK = 6;

// Pixels to a tenth, as attributes have them.
export const tenth = (pixels) => Math.round(pixels * 10) / 10;

// A shape: the name of its element, its attributes, its tooltip and its text. Tooltip and text may be of a file's words.
export const shape = (name, attributes, title = '', text = '') => ({ name, attributes, title, text });

export class Frame {
    constructor(lanes, begin, end, width) {
        const longest = lanes.reduce((most, { name }) => Math.max(most, name.length), 6);
        this.left = Math.min(16 + LETTER * longest, width * 0.34);
        this.begin = begin;
        this.end = end;
        this.width = width;
        this.bottom = TOP + LANE * lanes.length;
        this.perTick = (width - RIGHT - this.left) / (end - begin);
    }

    x(boundary) {
        return this.left + (Math.min(Math.max(boundary, this.begin), this.end) - this.begin) * this.perTick;
    }

    ground(lane) {
        return TOP + LANE * (lane + 1);
    }

    hasBoundary(tick) {
        return tick >= this.begin && tick <= this.end;
    }

    isNarrow() {
        return this.perTick < LEAST_TICK;
    }

    // The indices of what is seen in the window, in columns of begins and ends in the order of time.
    * seen({ begin, end }) {
        for (let index = end.firstAtLeast(this.begin + 1); index < begin.length && begin.at(index) < this.end; index += 1) yield index;
    }
}
