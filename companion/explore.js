// Looks at all orders of commits that a program can take, as far as a bound: which ends there are, and a shortest history for each.
// Types say nothing of threads that wait for one another; this looks. It proves nothing: what it says of all orders holds as far as this
// code is right, and of each end that it shows `pat replay` has the word.

import { Configuration } from './machine.js';
import { Keys } from './canonical.js';
import { slice } from './slice.js';
import { Reduction } from './reduction.js';

const PORTION = 256;                        // local steps of one entry, as `pat run` writes them
const LOCAL_STEPS = 100000;                 // a thread that takes more of them on end isn't followed further
const ALONE = 1000;                         // steps that need no choice are taken at once, so many at most
const OUTPUTS = 1000;                       // outputs that are kept of one end

export const STATES = 100000, SECONDS = 60;

/**
 * {ends, complete, states, cut}. An end has {kind: 'done' or 'waiting', left (mailboxes), waiting (the numbers of the threads), history
 * (lines), steps, shared (commits), outputs (a set of texts), outputsComplete}. `cut` says why a search isn't complete: 'states',
 * 'seconds' or 'local'. Ends are alike where threads wait at the same guards and the same messages are left, values aside.
 *
 * It searches twice: first for the ends, without a look at the order of printed lines; then, if threads print, for the outputs.
 */
export function explore(program, { states = STATES, seconds = SECONDS, plain = false, outputs = true } = {}) {
  const until = Date.now() + 1000 * seconds, search = prints => {
    const searched = plain ? program : slice(program, { prints });
    return new Search(searched, { states, until, plain, outputs: prints }).run();
  };
  const first = search(false), ends = [...first.ends.values()];
  for (const end of ends) Object.assign(end, historyOf(program, end));
  ends.sort((one, other) => one.kind.localeCompare(other.kind) || one.shared - other.shared);
  if (outputs && ends.length) addOutputs(ends, search(true));
  return { ends, complete: first.cut === null, states: first.states, cut: first.cut };
}
function addOutputs(ends, search) {
  for (const end of ends) {
    const same = search.ends.get(end.key);
    same?.outputs.forEach(output => end.outputs.add(output));
    end.outputsComplete = search.cut === null && !same?.manyOutputs;
  }
}

class Search {
  constructor(program, { states, until, plain, outputs }) {
    Object.assign(this, { program, most: states, until, outputs });
    this.keys = new Keys(program); this.reduction = new Reduction(program, { outputs, plain }); this.plain = plain;
    this.ends = new Map(); this.seen = new Map(); this.byLength = new Map(); this.shortest = 0; this.states = 0; this.cut = null;
  }

  /** By length: of two ways to a configuration the shorter one is found first. */
  run() {
    this.begin();
    for (let node = this.next(); node; node = this.next()) {
      if (Date.now() > this.until) { this.cut ??= 'seconds'; break; }
      const steps = this.reduction.choose(node.configuration);
      if (steps.length) for (const step of steps) this.follow(node, step);
      else this.noteEnd(node);
      node.configuration = null;
    }
    return this;
  }
  begin() {
    const configuration = new Configuration(this.program), node = { configuration, commits: [], length: 0, before: null };
    if (settle(configuration, 0)) this.add(this.plain ? node : this.goAlone(node)); else this.cut = 'local';
  }
  next() {
    for (; this.byLength.size; this.shortest++) {
      const nodes = this.byLength.get(this.shortest);
      while (nodes?.length) {
        const node = nodes.pop();
        if (this.seen.get(node.key) === node.length) { this.seen.set(node.key, -1); return node; }
      }
      this.byLength.delete(this.shortest);
    }
    return null;
  }
  add(node) {
    if (!node) return;
    node.key = this.keys.keyOf(node.configuration, this.outputs ? this.keys.numberOf(node.configuration.lines.join('\n')) : '');
    const known = this.seen.get(node.key);
    if (known !== undefined && known <= node.length) return;
    if (known === undefined && this.states === this.most) { this.cut ??= 'states'; return; }
    if (known === undefined) this.states++;
    this.seen.set(node.key, node.length);
    if (!this.byLength.has(node.length)) this.byLength.set(node.length, []);
    this.byLength.get(node.length).push(node);
  }
  follow(before, step) {
    const configuration = before.configuration.fork(step.thread.number);
    const node = { configuration, commits: [], length: before.length, before };
    if (!this.take(node, step)) return;
    this.add(this.plain ? node : this.goAlone(node));
  }
  /** Takes steps that need no choice, as long as there are some. */
  goAlone(node) {
    for (let count = 0; count < ALONE; count++) {
      const step = this.reduction.alone(node.configuration);
      if (!step) return node;
      if (!this.take(node, step)) return null;
    }
    return node;
  }
  /** One commit: a thread's shared step, and then its local ones, and those of a new thread. */
  take(node, { thread: { number }, act, message = null }) {
    const { configuration } = node, thread = configuration.threads.get(number).copy();
    configuration.threads.set(number, thread);
    node.commits.push({ number, act, received: message?.number ?? null });
    node.length++;
    const { child } = configuration.take(thread, act, message);
    const goesOn = (act === 'end' || settle(configuration, number)) && (!child || settle(configuration, child.number));
    if (!goesOn) this.cut ??= 'local';
    return goesOn;
  }

  // -------------------------------------------------------------------------------------------------------------- ends

  noteEnd(node) {
    const { configuration } = node, key = this.kindOfEnd(configuration), output = configuration.lines.join('\n');
    let end = this.ends.get(key);
    if (!end) {
      const waiting = [...configuration.threads.keys()].sort((one, other) => one - other);
      end = { key, kind: waiting.length ? 'waiting' : 'done', left: configuration.live.size, waiting, shared: node.length,
        commits: commitsTo(node), outputs: new Set(), manyOutputs: false };
      this.ends.set(key, end);
    }
    if (!this.outputs) return;
    if (end.outputs.size < OUTPUTS || end.outputs.has(output)) end.outputs.add(output); else end.manyOutputs = true;
  }
  kindOfEnd(configuration) {
    const stands = [...configuration.threads.values()].map(thread => {
      const tags = configuration.pendingIn(thread.target).map(message => message.tag).sort();
      return `${this.keys.termNumbers.get(thread.control)} ${tags.join(' ')}`;
    });
    const tags = [...configuration.messages.values()].map(message => `${message.mailbox.interface}.${message.tag}`).sort();
    return `${stands.sort().join(';')}|${tags.join(' ')}|${configuration.live.size}`;
  }
}

/** A thread's local steps; false where there is no end of them. */
function settle(configuration, number) {
  return configuration.threads.get(number).settle(configuration.program, LOCAL_STEPS) < LOCAL_STEPS;
}
function commitsTo(node) {
  const nodes = [];
  for (let one = node; one; one = one.before) nodes.push(one);
  return nodes.reverse().flatMap(one => one.commits);
}

/**
 * The lines of the history to an end, and the number of its steps. The search takes local steps at once; a history takes them with the
 * thread's next commit, and otherwise only where they are waited for: a mailbox can be freed once others have gone on from where they
 * knew it, and threads that are left go on to their guards.
 */
function historyOf(program, { commits, waiting }) {
  const configuration = new Configuration(program), history = { lines: [], steps: 0 };
  const write = (thread, act) => {
    let locals = thread.settle(program, LOCAL_STEPS);
    history.steps += locals + (act === '-' ? 0 : 1);
    for (; locals >= PORTION; locals -= PORTION) history.lines.push(`0 ${thread.number} ${PORTION} -`);
    if (locals || act !== '-') history.lines.push(`0 ${thread.number} ${locals} ${act}`);
  };
  for (const { number, act, received } of commits) {
    const thread = configuration.threads.get(number), message = received === null ? null : configuration.messages.get(received);
    if (act === 'free') letGo(configuration, thread, other => write(other, '-'));
    write(thread, message ? `receive ${received}` : act);
    configuration.take(thread, act, message);
  }
  waiting.forEach(number => write(configuration.threads.get(number), '-'));
  return { history: history.lines, steps: history.steps };
}
function letGo(configuration, thread, goOn) {
  const copy = thread.copy();
  copy.settle(configuration.program, LOCAL_STEPS);
  for (const other of configuration.threads.values()) if (other !== thread && other.held.has(copy.target)) goOn(other);
}

/** An end as `pat run` writes it. */
export function runText({ kind, left, waiting, steps, history }, output) {
  const outcome = kind === 'waiting' ? `waiting ${steps} ${waiting.join(' ')}`
    : `done ${steps}${left ? ` left ${left}` : ''}`;
  return ['%%history', ...history, '%%output', ...output.map(line => `out ${line}`), outcome, ''].join('\n');
}
