// Asks the worker, so that typing never waits. Where a browser gives none, the same code answers in the page.

import { answerer } from './answers.js';

export class Asker {
  /** `program` is the worker's text, `bytes` the module; `changed(isBusy)` is called when work begins and when none is left. */
  constructor({ program, bytes, changed }) {
    Object.assign(this, { program, bytes, changed, number: 0, waiting: new Map(), since: 0, worker: null, answer: null });
    this.begin();
  }
  get isAlone() { return this.worker === null; }
  /** For how long the oldest request has been under way, in milliseconds. */
  get busyFor() { return this.waiting.size ? performance.now() - this.since : 0; }

  begin() {
    try {
      const address = URL.createObjectURL(new Blob([this.program], { type: 'text/javascript' }));
      this.worker = new Worker(address);
      URL.revokeObjectURL(address);
      this.worker.onmessage = ({ data }) => this.take(data);
      this.worker.onerror = event => { event.preventDefault(); this.withoutWorker(); };
      this.worker.postMessage({ bytes: this.bytes });
    } catch { this.withoutWorker(); }
  }
  async withoutWorker() {
    this.worker?.terminate();
    this.worker = null;
    this.answer ??= answerer(this.bytes);
    for (const { request } of [...this.waiting.values()]) this.take(await this.answer(request));
  }
  take(answer) {
    const waiting = this.waiting.get(answer.id);
    this.waiting.delete(answer.id);
    this.since = performance.now();
    if (!this.waiting.size) this.changed(false);
    waiting?.give(answer);
  }
  /** The promise of an answer. One that was stopped is {stopped: true}, one that broke off {failed: why}. */
  ask(what, given = {}) {
    const request = { id: ++this.number, what, ...given };
    return new Promise(give => {
      if (!this.waiting.size) { this.since = performance.now(); this.changed(true); }
      this.waiting.set(request.id, { request, give });
      if (this.worker) this.worker.postMessage(request); else this.answer(request).then(answer => this.take(answer));
    });
  }
  /** Ends all that is under way. Without a worker nothing can be ended. */
  stop() {
    if (!this.worker || !this.waiting.size) return;
    this.worker.terminate();
    const waiting = [...this.waiting.values()];
    this.waiting.clear();
    this.begin();
    this.changed(false);
    for (const { give } of waiting) give({ stopped: true });
  }
}
