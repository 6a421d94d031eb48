// What explore.js found, for readers. Each end is given to `pat replay` before it is shown; one that `pat` doesn't accept is shown as
// such.

import { explore, runText } from './explore.js';
import { readRun, replay, waitingCircle } from './step.js';
import { sayStanding, trace } from './trace.js';

const ROWS = 40;                            // a history of more commits isn't told in full
const SOME = 4;                             // outputs that are shown of an end

/** {ends, complete, states, cut, seconds}: of each end {kind, left, outputs, outputsComplete, shared, text (as `pat run` writes it), run,
 * circle, answer}; `answer` is what `pat replay` says, or null where that isn't this end. */
export function endsOf(program, source, pat, options) {
  const began = Date.now(), found = explore(program, options), seconds = (Date.now() - began) / 1000;
  return { ...found, seconds, ends: found.ends.map(end => judged(program, source, pat, end)) };
}
function judged(program, source, pat, end) {
  const run = replay(program, end.history), text = runText(end, run.output), { outcome } = readRun(text);
  const answer = pat(['replay'], new TextEncoder().encode(`${source.text}\n${text}`)).text.trimEnd().split('\n').at(-1);
  end.outputs.add(run.output.join('\n'));
  return { ...end, text, run: { ...run, outcome }, circle: waitingCircle(run.threads), answer: answer === outcome ? answer : null };
}

/** The ends as data. */
export function endsAsData({ ends, complete, states, cut, seconds }) {
  return { complete, states, cut, seconds, ends: ends.map(end => ({
    kind: end.kind, answer: end.answer, left: end.left, commits: end.shared, outputs: [...end.outputs].map(linesOf),
    outputsComplete: end.outputsComplete, history: end.history,
    waiting: end.run.threads.map(({ thread, name, mailbox, pattern, pending, place }) => ({ thread, name, mailbox, pattern, pending, place })),
    circle: end.circle.map(one => one.thread) })) };
}
const linesOf = output => output === '' ? [] : output.split('\n');

/** The ends as text. */
export function sayEnds(found, source, { colours = false } = {}) {
  const { ends } = found;
  const number = ends.length === 1 ? 'one end' : `${ends.length} ends`, soFar = found.complete ? '' : ' so far';
  return [`${source.name}: ${number}${soFar}; ${saySearched(found)}`, ...ends.map((end, index) => sayEnd(end, index + 1, source, colours))].join('\n\n') + '\n';
}
function saySearched({ complete, states, cut, seconds }) {
  const time = `${seconds < 10 ? seconds.toFixed(1) : Math.round(seconds)} s`;
  const number = states === 1 ? 'one configuration' : `${states} configurations`;
  const why = { states: 'more of them is what --states N allows', seconds: 'there was no time for more (--seconds N)',
    local: 'a thread goes on by itself without an end' }[cut];
  return complete ? `all orders were looked at (${number}, ${time})` : `not all orders were looked at (${number}, ${time}): ${why}`;
}
function sayEnd(end, number, source, colours) {
  const { kind, left, run, circle, answer } = end, lines = [];
  const kept = left ? `, and ${left === 1 ? 'one mailbox is' : `${left} mailboxes are`} left` : '';
  lines.push(kind === 'done' ? `${number}. All threads end${kept}.` : `${number}. ${run.threads.length} threads wait for ever.`);
  if (answer === null) lines.push('   pat replay doesn\'t accept the history that was found: this is a fault of the search');
  for (const one of run.threads) lines.push(`   thread ${one.thread} ${one.name}  ${sayStanding(one)}${lineOf(source, one.place)}`);
  if (circle.length) lines.push(`   in a circle: ${sayCircle(circle)}`);
  lines.push(...sayOutputs(end));
  lines.push(`   the shortest history has ${end.shared} commits; --end ${number} writes it`);
  if (kind === 'waiting' && end.shared <= ROWS) lines.push(...trace({ ...run, outcome: null }, { source, colours }).trimEnd().split('\n')
    .slice(0, end.shared).map(row => `     ${row}`));
  return lines.join('\n');
}
function sayCircle(circle) {
  const [first, ...others] = circle.map(one => `thread ${one.thread}`);
  return `${first} waits for ${[...others, first].join(', that for ')}`;
}
const lineOf = (source, place) => place ? `  (line ${source.position(place.a).line})` : '';
function sayOutputs({ outputs, outputsComplete }) {
  const shown = [...outputs].slice(0, SOME).map(output => linesOf(output).join(' ') || '(nothing)'), more = outputs.size - shown.length;
  const all = [...shown, ...(more ? [`${more} other${more === 1 ? '' : 's'}`] : []), ...(outputsComplete ? [] : ['perhaps others'])];
  return [`   it prints ${all.join(', or ')}`];
}
