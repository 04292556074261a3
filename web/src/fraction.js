// Fractions of whole numbers without rounding, for what the page works out from the loads that the proved code writes.

function divisorOf(one, other) {
    while (other !== 0n) [one, other] = [other, one % other];
    return one;
}

export class Fraction {
    constructor(over, under = 1n) {
        const divisor = divisorOf(over < 0n ? -over : over, under) || 1n;
        this.over = over / divisor;
        this.under = under / divisor;
    }

    // The fraction of a text such as 3/4.
    static of(text) {
        const [over, under = '1'] = text.split('/');
        return new Fraction(BigInt(over), BigInt(under));
    }

    plus(other) {
        return new Fraction(this.over * other.under + other.over * this.under, this.under * other.under);
    }

    minus(other) {
        return new Fraction(this.over * other.under - other.over * this.under, this.under * other.under);
    }

    times(other) {
        return new Fraction(this.over * other.over, this.under * other.under);
    }

    // The quotient; the other fraction is above 0.
    by(other) {
        return new Fraction(this.over * other.under, this.under * other.over);
    }

    isAtMost(other) {
        return this.over * other.under <= other.over * this.under;
    }

    isAbove(other) {
        return !this.isAtMost(other);
    }

    toString() {
        return `${this.over}/${this.under}`;
    }

    toNumber() {
        const decimals = 10n ** 15n;
        return Number(this.over * decimals / this.under) / 1e15;
    }
}

export const ONE = new Fraction(1n);

// A fraction as a reader needs it: a whole number, or p/q with its decimal value.
export function written(fraction) {
    return fraction.under === 1n ? String(fraction.over) : `${fraction} (about ${fraction.toNumber().toFixed(2)})`;
}
