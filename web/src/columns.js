// Lists of whole numbers below 2^32, in four bytes each. A long trace is kept in them.

class Column {
    constructor() {
        this.length = 0;
        this.numbers = new Uint32Array(256);
    }

    push(number) {
        if (this.length === this.numbers.length) {
            const more = new Uint32Array(2 * this.length);
            more.set(this.numbers);
            this.numbers = more;
        }
        this.numbers[this.length] = number;
        this.length += 1;
    }

    at(index) {
        return this.numbers[index];
    }

    set(index, number) {
        this.numbers[index] = number;
    }

    // How often this number is in the list.
    count(wanted) {
        return this.numbers.subarray(0, this.length).reduce((count, one) => count + Number(one === wanted), 0);
    }

    // In a list that never falls, the index of the first number that is at least this one, or the length if there is none.
    firstAtLeast(least) {
        let [low, high] = [0, this.length];
        while (low < high) {
            const middle = (low + high) >>> 1;
            if (this.numbers[middle] < least) low = middle + 1;
            else high = middle;
        }
        return low;
    }
}

// Columns by name, which are filled together: an index is one record of theirs.
export function columns(...names) {
    return Object.fromEntries(names.map((name) => [name, new Column()]));
}
