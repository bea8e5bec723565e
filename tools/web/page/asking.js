// Asks the worker, which answers in order. A worker that takes too long is ended, and another goes on in its place.

/** Thrown to who waits for an answer of a worker that was ended. */
export class Stopped extends Error {}

/** What the lab or the program tells that goes wrong. */
export class Told extends Error {}

const SLOW = 700;

export class Asking {
  /** `busy` is told whether the worker takes long. */
  constructor(module, pages, busy) {
    Object.assign(this, { module, pages, busy, waiting: new Map(), number: 0 });
    this.start();
  }

  start() {
    this.worker = new Worker(new URL("./worker.js", import.meta.url), { type: "module" });
    this.worker.addEventListener("message", ({ data }) => this.take(data));
    this.worker.addEventListener("error", () => this.end(new Told("the page's worker failed")));
    // Where it is ended before it has begun, nobody waits for that.
    this.ask("begin", { module: this.module, pages: this.pages }).catch(() => {});
  }

  ask(kind, given = {}) {
    this.number += 1;
    const number = this.number;
    const late = setTimeout(() => this.busy(true), SLOW);
    this.worker.postMessage({ ...given, kind, number });
    return new Promise((done, failed) => this.waiting.set(number, { done, failed, late }));
  }

  take({ number, told, fault }) {
    const asked = this.waiting.get(number);
    if (!asked) return;
    clearTimeout(asked.late);
    this.waiting.delete(number);
    if (!this.waiting.size) this.busy(false);
    if (fault === undefined) asked.done(told);
    else asked.failed(new Told(fault));
  }

  end(fault) {
    this.worker.terminate();
    for (const { failed, late } of this.waiting.values()) {
      clearTimeout(late);
      failed(fault);
    }
    this.waiting.clear();
    this.busy(false);
  }

  /** Ends what the worker is at. */
  stop() {
    this.end(new Stopped("stopped"));
    this.start();
  }
}
