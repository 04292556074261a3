// What the page says of the scales: which of them hold, and whether the one at the slider does. Which hold is the proved code's answer.
import { Fraction } from './fraction.js';

export function holds({ least, greatest }, scale) {
    return Fraction.of(least).isAtMost(scale) && scale.isAtMost(Fraction.of(greatest));
}

// Which scales hold. Under plain EDF none is in use.
export function rangeWords({ least, greatest }, isPlain) {
    const isOne = least === greatest;
    const which = isOne ? `the scale ${least} alone` : least === '0/1' ? `each scale above 0 and up to ${greatest}` : `the scales from ${least} to ${greatest}`;
    const mark = isOne ? 'it is marked' : 'they are shaded';
    if (isPlain) return `The rule of this set is plain EDF, which needs no scale. With virtual deadlines, ${which} would hold; ${mark}.`;
    return `${which[0].toUpperCase()}${which.slice(1)} ${isOne || least === '0/1' ? 'holds' : 'hold'}; ${mark}.`;
}

// What is said at the slider on a scale, or on null, which is no scale.
export function scaleWords(range, scale) {
    if (scale === null) return 'No scale is in use: plain EDF has no x.';
    return `x = ${scale} = ${scale.toNumber().toFixed(4)} ${holds(range, scale) ? 'holds' : 'does not hold'}`;
}

// What stands in place of the slider where no scale holds. The file may have one of its own, or null.
export function noScaleWords(own) {
    return `No scale holds. One holds exactly if the test admits the set, so there is none to choose here yet.${own === null ? '' : ` The file’s own scale ${own} does not hold either.`}`;
}
