// A Chromium without a window, driven by its DevTools protocol through pipes. Without dependencies.

import { spawn } from 'node:child_process';
import { mkdtempSync, rmSync } from 'node:fs';
import { tmpdir } from 'node:os';
import { join } from 'node:path';

const END_OF_MESSAGE = '\0';
// For a machine that is busy.
const COMMAND_MS = 140_000, LOAD_MS = 60_000, POLL_MS = 40;

/** Messages over a pair of pipes: `send` gives the promise of an answer, and `listen` is called with each event. */
class Connection {
  constructor(to, from, listen) {
    Object.assign(this, { to, listen, number: 0, waiting: new Map(), rest: '' });
    from.setEncoding('utf8');
    from.on('data', text => this.receive(text));
    from.on('close', () => this.closed());
  }
  receive(text) {
    const messages = (this.rest + text).split(END_OF_MESSAGE);
    this.rest = messages.pop();
    for (const message of messages) this.take(JSON.parse(message));
  }
  take(message) {
    const waiting = this.waiting.get(message.id);
    if (!waiting) { this.listen(message); return; }
    this.waiting.delete(message.id);
    if (message.error) waiting.refuse(new Error(`${waiting.method}: ${message.error.message}`)); else waiting.give(message.result);
  }
  closed() {
    for (const { refuse, method } of this.waiting.values()) refuse(new Error(`${method}: the browser ended`));
    this.waiting.clear();
  }
  send(method, params = {}, sessionId) {
    const id = ++this.number;
    return new Promise((give, refuse) => {
      const late = setTimeout(() => refuse(new Error(`${method}: no answer`)), COMMAND_MS);
      const once = then => value => { clearTimeout(late); then(value); };
      this.waiting.set(id, { method, give: once(give), refuse: once(refuse) });
      this.to.write(JSON.stringify({ id, method, params, sessionId }) + END_OF_MESSAGE);
    });
  }
}

const whatWentWrong = ({ exception, text }) => exception?.description ?? text;

/** A page of the browser. `problems` collects what its console calls errors, and errors that nobody caught. */
class Page {
  constructor(connection, session) { Object.assign(this, { connection, session, problems: [] }); }
  send(method, params) { return this.connection.send(method, params, this.session); }
  event({ method, params }) {
    if (method === 'Runtime.exceptionThrown') this.problems.push(whatWentWrong(params.exceptionDetails));
    if (method === 'Runtime.consoleAPICalled' && params.type === 'error') {
      this.problems.push(params.args.map(one => one.value).join(' '));
    }
    if (method === 'Log.entryAdded' && params.entry.level === 'error') this.problems.push(params.entry.text);
  }
  /** The value of an expression, or of a function that is called there with `given`; promises are waited for. */
  async value(what, ...given) {
    const expression = typeof what === 'function' ? `(${what})(...${JSON.stringify(given)})` : what;
    const { result, exceptionDetails } = await this.send('Runtime.evaluate', { expression, awaitPromise: true, returnByValue: true });
    if (exceptionDetails) throw new Error(whatWentWrong(exceptionDetails));
    return result.value;
  }
  /** Waits until the function gives something true there, and gives that. */
  async until(what, milliseconds, ...given) {
    const end = Date.now() + milliseconds;
    for (;;) {
      const found = await this.value(what, ...given);
      if (found) return found;
      if (Date.now() > end) throw new Error(`not within ${milliseconds} ms: ${what}`);
      await new Promise(give => setTimeout(give, POLL_MS));
    }
  }
  async open(address) {
    await this.send('Page.navigate', { url: 'about:blank' });
    await this.send('Page.navigate', { url: address });
    await this.until(() => location.href !== 'about:blank' && document.readyState === 'complete', LOAD_MS);
  }
  /** `script` runs in each document before its own. */
  before(script) { return this.send('Page.addScriptToEvaluateOnNewDocument', { source: script }); }
  size(width, height, { scale = 1, mobile = false } = {}) {
    return this.send('Emulation.setDeviceMetricsOverride', { width, height, deviceScaleFactor: scale, mobile });
  }
  media(features) {
    return this.send('Emulation.setEmulatedMedia', { features: Object.entries(features).map(([name, value]) => ({ name, value })) });
  }
  async key(key, { code = key, text, modifiers = 0, keyCode = 0 } = {}) {
    const all = { key, code, modifiers, windowsVirtualKeyCode: keyCode, text };
    await this.send('Input.dispatchKeyEvent', { type: text ? 'keyDown' : 'rawKeyDown', ...all });
    await this.send('Input.dispatchKeyEvent', { type: 'keyUp', key, code, modifiers, windowsVirtualKeyCode: keyCode });
  }
  async shot() { return Buffer.from((await this.send('Page.captureScreenshot', { format: 'png' })).data, 'base64'); }
}

const OPTIONS = [
  '--headless=new', '--no-sandbox', '--disable-gpu', '--disable-dev-shm-usage', '--no-first-run', '--disable-extensions',
  '--disable-background-networking', '--hide-scrollbars', '--remote-debugging-pipe',
];
export class Browser {
  constructor(program) {
    this.folder = mkdtempSync(join(tmpdir(), 'pat-page-'));
    const words = [...OPTIONS, `--user-data-dir=${this.folder}`];
    this.process = spawn(program, words, { stdio: ['ignore', 'ignore', 'ignore', 'pipe', 'pipe'] });
    this.pages = new Map();
    const [, , , to, from] = this.process.stdio;
    this.connection = new Connection(to, from, event => this.pages.get(event.sessionId)?.event(event));
    to.on('error', () => this.connection.closed());
    this.process.on('error', () => this.connection.closed());
  }
  async page() {
    const { targetId } = await this.connection.send('Target.createTarget', { url: 'about:blank' });
    const { sessionId } = await this.connection.send('Target.attachToTarget', { targetId, flatten: true });
    const page = new Page(this.connection, sessionId);
    this.pages.set(sessionId, page);
    for (const domain of ['Page', 'Runtime', 'Log']) await page.send(`${domain}.enable`);
    return page;
  }
  async close() {
    const ended = new Promise(give => this.process.once('exit', give));
    await this.connection.send('Browser.close').catch(() => this.process.kill());
    await ended;
    rmSync(this.folder, { recursive: true, force: true, maxRetries: 10, retryDelay: 200 });
  }
}
