// The rule of a trace, and the virtual deadlines under it. Which rule a set has is the proved code's answer.
import { Fraction } from './fraction.js';

const PLAIN = { name: 'plain', scale: new Fraction(1n) };

// The rule of a trace: virtual deadlines under a scale of two words p and q, or else the rule that the answer of `check` says.
export function ruleOf(scale, check) {
    if (scale.length === 2) return { name: 'virtual', scale: Fraction.of(scale.join('/')) };
    const found = /^rule virtual\nx (\S+)$/m.exec(check);
    return found ? { name: 'virtual', scale: Fraction.of(found[1]) } : PLAIN;
}

// How long after its release a job of this task has its virtual deadline: p/q of the period, not rounded. Under plain EDF, and for a low
// task, there is none.
export function virtualSpan(rule, { level, period }) {
    const isVirtual = rule.name === 'virtual' && level === 'high' && Number.isInteger(period);
    return isVirtual ? rule.scale.times(new Fraction(BigInt(period))) : null;
}
