// What the page asks, answered beside it. Verdicts, runs and replays are `pat`'s own, by the module; the rest tells them: the
// explanation, found types, rows and charts of a history.

import { Source, parse } from '../companion/parse.js';
import { resolve } from '../companion/names.js';
import { readVerdict } from '../companion/verdict.js';
import { explain } from '../companion/explain/explain.js';
import { explainOutcome } from '../companion/explain/judged.js';
import { readRun, replay } from '../companion/step.js';
import { tell } from '../companion/trace.js';
import { chart } from '../companion/chart.js';
import { format } from '../companion/format.js';
import { signatures } from '../companion/types.js';
import { hostedPat } from './host.js';

// How many rows of a history are drawn at once, and how long a search for a word may take.
export const ROWS = 150;
const SEARCH_MS = 800;
const STATUS_NO_MEMORY = 5;

/** A program with a text behind it, as `verify` and `replay` take them, and where that text begins. */
function joined(text, evidence) {
  const program = text.endsWith('\n') ? text : text + '\n';
  return { source: new Source(program + evidence, 'program'), start: program.length };
}
const lineAt = (source, place) => source.position(place.a).line;
/** A mark with indices of the text, as editors count them; behind `start` they are those of the evidence. */
function placed(source, mark, start) {
  const from = source.index(mark.place.a), to = source.index(mark.place.z), isEvidence = from >= start;
  const line = lineAt(source, mark.place) - (isEvidence ? lineAt(source, { a: source.offset(start) }) - 1 : 0);
  const base = isEvidence ? start : 0;
  return { label: mark.label, primary: mark.primary, isEvidence, line, from: from - base, to: to - base };
}
function told(source, explanation, start = Infinity) {
  return explanation && { ...explanation, marks: explanation.marks.map(mark => placed(source, mark, start)) };
}
/** An explanation, or why there is none: a verdict stands without it too. */
function explained(source, verdict, more, start) {
  try { return told(source, explain(source, verdict, { words: { time: SEARCH_MS }, ...more }), start); } catch (problem) {
    return { headline: '', marks: [], notes: [`No explanation was found (${problem.message}).`], hints: [], doc: null };
  }
}
const ACTS = {
  new: 'makes a mailbox next', send: 'sends next', spawn: 'spawns a thread next', print: 'prints next', end: 'ends next',
};
/** How a thread stands, in few words: what is in the mailboxes is told beside it. */
function stands({ label, state, mailbox, pattern, waits, act }) {
  const where = state && !label.includes(state) ? `in ${state} ` : '';
  if (mailbox === undefined) return where + (ACTS[act] ?? 'goes on');
  return `${where}${waits ? 'waits' : 'can go on'} at guard ${mailbox} : ${pattern}`;
}
const lineOf = ({ status, text }) => status === STATUS_NO_MEMORY ? 'out of memory' : text.split('\n', 1)[0];

/** A judge's refusal of a text behind a program. */
function refusal(source, start, written, more = {}) {
  const line = lineOf(written);
  return { accepted: false, lines: [line], explanation: explained(source, readVerdict(line), more, start) };
}
// How the answer to a history begins that replays.
const REPLAYED = /^(out|done|waiting|open|budget|full)\b/;

class Answers {
  constructor(bytes) { this.pat = bytes && hostedPat(new WebAssembly.Module(bytes)); this.checked = null; this.history = null; }

  async words() {
    const { text } = await this.pat(['help'], new Uint8Array());
    return { words: /^usage: pat (\S+)/.exec(text)?.[1].split('|') ?? [] };
  }
  async derived(text) {
    if (this.checked?.text === text) return this.checked;
    const source = new Source(text, 'program'), began = performance.now();
    const written = await this.pat(['derive'], source.bytes);
    const took = performance.now() - began;
    this.checked = { text, source, status: written.status, written: written.text, line: lineOf(written), took };
    return this.checked;
  }
  async check({ text }) {
    const { status, line, took } = await this.derived(text);
    return { accepted: status === 0, status, line: status === 0 ? 'accepted' : line, took };
  }
  async explain({ text }) {
    const { source, line } = await this.derived(text);
    return { explanation: explained(source, readVerdict(line), {}) };
  }
  async types({ text }) {
    const { source, written } = await this.derived(text), program = parse(source);
    resolve(program);
    return { signatures: signatures(program, written) };
  }
  async derivation({ text }) { return { text: (await this.derived(text)).written }; }
  async run({ text, steps }) {
    const written = await this.pat(['run', '--workers', '1', '--steps', String(steps)], new Source(text).bytes);
    return readRun(written.text) ? { status: written.status, ...this.shown(text, written.text) } : { refused: lineOf(written) };
  }
  /** A history over its program, told; the last one is kept, since it is stepped through. */
  told(text, history) {
    if (this.history?.text === text && this.history.history === history) return this.history;
    const source = new Source(text, 'program'), program = parse(source), read = readRun(history);
    resolve(program);
    const run = replay(program, read.history, { outcome: read.outcome });
    this.history = { text, history, source, program, read, run, rows: tell(run) };
    return this.history;
  }
  shown(text, history) {
    const { source, read, run, rows } = this.told(text, history);
    return {
      history, output: read.output, outcome: read.outcome, entries: read.history.length, count: rows.length, window: ROWS,
      explanation: told(source, explainOutcome(run)), ...this.window({ text, history, from: 0 }),
    };
  }
  /** Some rows of a history, with their chart. */
  window({ text, history, from }) {
    const { source, run, rows } = this.told(text, history);
    const spot = ({ a, z }) => ({ from: source.index(a), to: source.index(z), line: source.position(a).line });
    const shown = rows.slice(from, from + ROWS).map(row => row.place ? { ...row, ...spot(row.place) } : row);
    return { from, rows: shown, chart: chart(run, { title: null, from, most: ROWS, paper: false }) };
  }
  /** How threads and mailboxes stand once this many rows are taken. */
  standing({ text, history, taken }) {
    const { program, read, rows, run: whole } = this.told(text, history);
    const most = taken ? rows[taken - 1].entry + 1 : 0, run = replay(program, read.history, { most, named: whole });
    const printed = rows.slice(0, taken).filter(row => row.parts.some(part => part.printed)).length;
    return {
      printed, threads: run.threads.map(one => ({ name: one.label, stands: stands(one) })),
      boxes: (run.boxes ?? []).map(({ mailbox, name, interface: of, pending }) => ({ number: mailbox.number, name, of, pending })),
    };
  }
  async verify({ text, evidence }) {
    const { source, start } = joined(text, evidence), written = await this.pat(['verify'], source.bytes);
    return written.status === 0 ? { accepted: true, lines: ['accepted'], explanation: null } : refusal(source, start, written);
  }
  async replay({ text, evidence }) {
    const { source, start } = joined(text, evidence), written = await this.pat(['replay'], source.bytes);
    if (REPLAYED.test(written.text)) return { accepted: true, lines: written.text.trimEnd().split('\n'), explanation: null };
    const { kind, entry } = readVerdict(lineOf(written));
    return refusal(source, start, written, { replayed: kind === 'refused' ? this.partly(text, evidence, entry) : null });
  }
  /** A history up to the entry that is refused. */
  partly(text, history, entry) {
    const program = parse(new Source(text, 'program'));
    resolve(program);
    return replay(program, readRun(history).history, { most: entry + 1 });
  }
  /** An accepted history, as a run is shown. */
  async show({ text, evidence }) { return this.shown(text, evidence); }
  async order({ text, evidence }) {
    const { source, start } = joined(text, evidence), written = await this.pat(['order'], source.bytes);
    return written.text.startsWith('%%history') ? { accepted: true, text: written.text } : refusal(source, start, written);
  }
  async format({ text }) { return { text: format(parse(new Source(text))) }; }
}
const REQUESTS = new Set('words check explain types derivation run window standing verify replay show order format'.split(' '));

/** Answers requests {id, what, ..} by a module's bytes; without one it formats. */
export function answerer(bytes) {
  const answers = new Answers(bytes);
  return async request => {
    try {
      if (!REQUESTS.has(request.what)) throw new Error(`no request is called ${request.what}`);
      return { id: request.id, ...await answers[request.what](request) };
    } catch (problem) { return { id: request.id, failed: String(problem.message ?? problem) }; }
  };
}
