// The two conditions of the published test, worked out from the loads that the proved code writes.
import { ONE } from './fraction.js';

// What must be at most 1: the sum of plain EDF, and the scale and the sum of EDF-VD. These two are null where the scale is not defined.
export function conditionsOf(lowLow, highLow, highHigh) {
    const plain = lowLow.plus(highHigh);
    if (!lowLow.isAtMost(ONE) || lowLow.toString() === '1/1') return { plain, scale: null, virtual: null };
    const scale = highLow.by(ONE.minus(lowLow));
    return { plain, scale, virtual: scale.times(lowLow).plus(highHigh) };
}
