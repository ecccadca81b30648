"use strict";
// Runs orders in a worker, so that the page stays usable, and stops them.

class Stopped extends Error {}

/** Tells of a fault; that an order was stopped is none. */
const complain = (fault) => fault instanceof Stopped || say(fault.message, true);

class Runner {
  /** A worker of this source, which begins with the module's code. */
  constructor(source, code) {
    this.url = URL.createObjectURL(new Blob([source], { type: "text/javascript" }));
    Object.assign(this, { code, worker: null, waiting: new Map(), last: 0 });
  }

  /** Starts the worker, once there is something for it to do. */
  begin() {
    this.worker = new Worker(this.url);
    this.worker.onmessage = ({ data }) => this.hear(data);
    this.worker.onerror = (event) => this.fail(new Error(event.message || "a worker of this page can't start"));
    this.ask({ order: "start", code: this.code }).catch(complain);
  }

  /** Asks for an order's answer; what is told on the way goes to `progress`. */
  ask(order, progress = () => {}) {
    if (!this.worker) this.begin();
    const id = ++this.last;
    return new Promise((resolve, reject) => {
      this.waiting.set(id, { resolve, reject, progress });
      this.worker.postMessage({ ...order, id });
    });
  }

  /** Runs the program: its status, text and complaint. */
  run(words, files) {
    return this.ask({ order: "run", words, files });
  }

  hear({ id, answer, fault, progress }) {
    const one = this.waiting.get(id);
    if (progress) return one.progress(progress);
    this.waiting.delete(id);
    if (fault) one.reject(new Error(fault));
    else one.resolve(answer);
  }

  fail(fault) {
    const all = [...this.waiting.values()];
    this.waiting.clear();
    for (const one of all) one.reject(fault);
  }

  isBusy() {
    return this.waiting.size > 0;
  }

  /** Ends what runs; the next order begins anew. */
  stop() {
    this.worker?.terminate();
    this.worker = null;
    this.fail(new Stopped("stopped"));
  }
}
