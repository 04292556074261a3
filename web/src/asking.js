// Questions to the worker. A question that takes too long can be stopped: its worker is ended, and another one begun.

export class Stopped extends Error {}

export class Asker {
    constructor(modules, newWorker) {
        this.modules = modules;
        this.newWorker = newWorker;
        this.last = 0;
        this.begin();
    }

    begin() {
        this.waiting = new Map();
        this.since = 0;
        this.worker = this.newWorker();
        this.worker.postMessage({ modules: this.modules });
        this.worker.onmessage = ({ data: { number, answer, error } }) => {
            const { done, fail } = this.waiting.get(number);
            this.waiting.delete(number);
            this.since = this.waiting.size > 0 ? performance.now() : 0;
            if (error === undefined) done(answer);
            else fail(new Error(error));
        };
        this.worker.onerror = (event) => this.stop(new Error(`The worker failed: ${event.message}`));
    }

    ask(kind, given) {
        this.last += 1;
        const number = this.last;
        if (this.waiting.size === 0) this.since = performance.now();
        return new Promise((done, fail) => {
            this.waiting.set(number, { done, fail });
            this.worker.postMessage({ number, kind, ...given });
        });
    }

    // For how many milliseconds the worker has been at its present question, or 0 if it has none.
    busyFor() {
        return this.since === 0 ? 0 : performance.now() - this.since;
    }

    // Ends each question that waits, and forgets what the worker kept.
    stop(why = new Stopped('Cancelled. Change a file to ask again.')) {
        this.worker.terminate();
        const left = [...this.waiting.values()];
        this.begin();
        for (const { fail } of left) fail(why);
    }
}
