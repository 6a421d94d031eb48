// A replayed history for readers: `tell` gives a row for each entry that others can see, `trace` writes them as text.

import { sayOutcome } from './step.js';
import { COLOURS, PLAIN } from './explain/render.js';

const WIDEST_WHO = 24, WIDEST_WHAT = 52;    // columns grow up to here; what is longer stands as it is

/** Rows {entry, worker, thread, label, name, state, place, parts}; parts are {text} or {text, mailbox: its number} or {text, printed}. */
export function tell(run) {
  return run.events.filter(event => event.act !== '-').map(event => ({
    entry: event.entry, worker: event.worker, thread: event.thread, label: run.labels.get(event.thread),
    name: called(run, event.name, event.own),
    state: event.state && event.state !== event.name ? event.state : null, place: event.place ?? null, parts: partsOf(run, event),
  }));
}
const called = ({ names }, name, own) => name + (own ? ` ${names.get(own)}` : '');
function partsOf(run, event) {
  const box = mailbox => ({ text: run.names.get(mailbox), mailbox: mailbox.number });
  switch (event.act) {
    case 'new': return [{ text: 'new ' }, box(event.mailbox), { text: ` : ${event.mailbox.interface}` }];
    case 'send': return [box(event.mailbox), { text: ` ! ${event.said}` }];
    case 'receive': return [{ text: `receives ${event.said} from ` }, box(event.mailbox), { text: ` : ${event.pattern}` }];
    case 'free': return [{ text: 'free ' }, box(event.mailbox)];
    case 'spawn': return [{ text: `spawns ${event.child} ${called(run, event.childName, event.childOwn)}` }];
    case 'print': return [{ text: 'prints ' }, { text: event.text, printed: true }];
    default: return [{ text: 'ends' }];
  }
}

/** How a thread that is left stands, in words. */
export function sayStanding(one) {
  if (one.mailbox === undefined) return `has still to go on${one.act ? `: ${one.act}` : ''}`;
  const inside = one.pending.length ? `in it: ${one.pending.join(', ')}` : 'nothing is in it';
  return `waits at guard ${one.mailbox} : ${one.pattern};  ${inside}`;
}
/** How the threads that are left stand, a line each. */
export const sayThreads = run => run.threads.map(one => `thread ${one.thread} ${one.name}  ${sayStanding(one)}`);

/** The rows as text in columns, and how it ended; `source`, where given, adds line numbers. */
export function trace(run, { source = null, colours = false } = {}) {
  const paint = colours ? COLOURS : PLAIN, lineOf = place => source && place ? `line ${source.position(place.a).line}` : '';
  const lines = rowsAsText(run, paint, lineOf);
  if (run.problem) lines.push(`entry ${run.problem.entry} can't be taken: ${run.problem.reason}`);
  if (run.outcome) lines.push(sayOutcome(run.outcome));
  if (!run.outcome?.startsWith('done')) sayThreads(run).forEach((said, index) => {
    const where = lineOf(run.threads[index].place);
    lines.push(`  ${said}${where && `  (${where})`}`);
  });
  return lines.join('\n') + '\n';
}
function rowsAsText(run, paint, lineOf) {
  const several = new Set(run.events.map(event => event.worker)).size > 1;
  const rows = tell(run).map(row => ({
    ...row, who: `${row.thread} ${row.name}`, at: lineOf(row.place), size: row.parts.reduce((sum, part) => sum + part.text.length, 0),
  }));
  const widest = (sizeOf, most = Infinity) => Math.min(most, rows.reduce((size, row) => Math.max(size, sizeOf(row)), 0));
  const entry = widest(row => String(row.entry).length), at = widest(row => row.at.length);
  const who = widest(row => row.who.length, WIDEST_WHO), what = widest(row => row.size, WIDEST_WHAT);
  const paintPart = ({ text, mailbox, printed }) => mailbox !== undefined ? paint.blue(text) : printed ? paint.green(text) : text;
  return rows.map(row => [
    paint.dim(String(row.entry).padStart(entry)), ...(several ? [paint.dim(`w${row.worker}`)] : []), paint.bold(row.who.padEnd(who)),
    row.parts.map(paintPart).join('') + ' '.repeat(Math.max(0, what - row.size)), paint.dim(row.at.padEnd(at)),
    row.state ? paint.dim(`in ${row.state}`) : ''].join('  ').trimEnd());
}
