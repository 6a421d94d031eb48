// What `verify`, `resume` and `replay` refuse.

import { termsInOrder } from '../parse.js';
import { sizeInBytes } from '../source.js';
import { and, chapter, code, mark, plural } from './say.js';

export { explainOutcome } from './outcomes.js';

const DERIVATIONS = 'docs/DERIVATIONS.md', RUNNING = 'docs/RUNNING.md';

// -------------------------------------------------------------------------------------------------------------- verify

const RULES_OF_VERIFY = {
  Shape: 'the line isn\'t of the form that this node needs: its type, its names or their interfaces',
  Empty: 'a sending pattern has no word',
  Alias: 'one mailbox stands twice in a call or send',
  Use: 'something is used that isn\'t there, or with the other mark, or as returnable where it came in a message',
  Drop: 'something is neither passed on nor may be dropped',
  Payload: 'the clause names another mailbox than its own, and its message brings one',
  Covers: 'the clauses don\'t cover the guard\'s pattern',
  Cert: 'a certificate is lacking, is one too many, or doesn\'t show its inclusion',
};

export function rejected({ verdict, source, program, names }) {
  const line = new RegExp(`^node ${verdict.node} .*$`, 'm').exec(source.text), rule = RULES_OF_VERIFY[verdict.rule];
  const place = line && { a: source.offset(line.index), z: source.offset(line.index + line[0].length) };
  const node = numbered(program)[verdict.node];
  return {
    headline: `the derivation's line for node ${verdict.node} breaks the rule ${verdict.rule}`,
    marks: [place && mark(place, rule, true), node && mark(node.term, `node ${verdict.node} is here`, !place)],
    notes: [place ? null : `there is no line for node ${verdict.node}: ${rule}`,
      node && line ? calledOnLine(line[0], node, names) : null],
    hints: ['a derivation that `pat derive` writes is accepted; this one was made or changed by others'],
    doc: chapter(DERIVATIONS, 'What makes it valid'),
  };
}
/** Which names the variables of a derivation's line are. */
function calledOnLine(line, node, names) {
  const variables = variablesOf(node.def, names);
  const numbers = [...new Set(line.match(/\bv\d+(?=:)/g) ?? [])].map(spelled => Number(spelled.slice(1)));
  return and(numbers.filter(at => variables[at]).map(at => `v${at} is ${code(variables[at].name)}`));
}

/** Nodes in their order, each {term, def}: a `free` has a second one, which is what follows it. */
export function numbered(program) {
  const nodes = [];
  for (const def of program.declarations.filter(one => one.k === 'def')) for (const term of termsInOrder(def.body)) {
    nodes.push({ term, def });
    if (term.k === 'free') nodes.push({ term, def });
  }
  return nodes;
}
/** A function's variables by their numbers: as their names stand in the text. */
export const variablesOf = (def, names) => names.binders.filter(binder => binder.of === def).sort((one, other) => one.a - other.a);

// -------------------------------------------------------------------------------------------------------------- resume

const RULES_OF_RESUME = {
  Numbers: 'numbers don\'t ascend below the next ones, a next one is above 4,000,000,000, or a mailbox that is named isn\'t live',
  Kinds: 'a part of a thread has other values than its free variables need, a frame is that of no `let`, or what a part gives isn\'t shown'
    + ' to fit the next frame',
  Distinct: 'two names of a part are one mailbox, or a message has its own mailbox, or one twice, in what it brings',
  Order: 'a part may give back a mailbox that a later part names',
  Holder: 'not just one place may receive from a live mailbox',
  Messages: 'a message isn\'t as its mailbox\'s interface declares',
  Balance: 'what is pending in a mailbox, with what may still be sent there, isn\'t shown to lie in what its receiver expects',
};
const CHECKPOINTS = chapter(RUNNING, 'What is checked');

export function badCheckpoint({ verdict, source }) {
  const { index, 0: line } = /^%%checkpoint$/m.exec(source.text);
  return {
    headline: `this checkpoint breaks the rule ${verdict.rule}`,
    marks: [mark({ a: source.offset(index), z: source.offset(index + line.length) }, RULES_OF_RESUME[verdict.rule], true)],
    hints: ['a checkpoint that `pat checkpoint` writes is taken; this one was made or changed by others'],
    doc: CHECKPOINTS,
  };
}

// -------------------------------------------------------------------------------------------------- texts behind programs

const FORMS = {
  derivation: {
    notes: ['a line is `var N I E` or `node N T {..}`; variables come first, and numbers leave none out'],
    doc: chapter(DERIVATIONS, 'The text of a derivation'),
  },
  checkpoint: {
    notes: ['behind one `next T B M` stand the lines `mailbox B I`, then `message N B M(..)`, then `thread T ..`, each with its `frame` lines'],
    doc: chapter(RUNNING, 'The text of a checkpoint'),
  },
  history: {
    notes: ['a line is `W T K A`: worker, thread, count of local steps, and new, send, spawn, print, free, end, receive M or -',
      'one space stands between, and no number has a zero in front'],
    doc: chapter(RUNNING, 'Texts'),
  },
};

export function badText({ source, place }) {
  const has = mark => new RegExp(`^%%${mark}$`, 'm').test(source.text), end = place.a >= source.bytes.length;
  if (end && !has('history') && !has('derivation')) return noMark();
  const what = textAt(source, place) ?? 'history';
  const { line } = source.position(place.a), here = { a: place.a, z: place.a + Math.max(1, sizeInBytes(source.line(line))) };
  return {
    headline: `this is no line of a ${what}`,
    marks: [mark(here, end ? 'the last line doesn\'t end with a newline, or is missing' : '', true)],
    ...FORMS[what],
  };
}
/** The text that a place is in: what the last line that marks one names. */
function textAt(source, { a }) {
  const marks = [...source.text.matchAll(/^%%(derivation|checkpoint|history)$/gm)];
  return marks.findLast(found => source.offset(found.index) < a)?.[1];
}
const noMark = () => ({
  headline: 'no line is `%%history` or `%%derivation`',
  notes: ['the program comes first, and behind it, from such a line on, what is to be judged'],
  hints: ['(cat f.pat; pat run < f.pat) | pat replay', '(cat f.pat; pat derive < f.pat) | pat verify'],
  doc: chapter(RUNNING, 'Texts'),
});

// -------------------------------------------------------------------------------------------------------------- replay

export function refusedEntry({ source, verdict, replayed }) {
  const entry = entryAt(source, verdict.entry), thread = Number(entry.line.split(' ')[1]);
  const stands = replayed?.threads.find(one => one.thread === thread);
  return {
    headline: `entry ${verdict.entry} can't be taken`,
    marks: [mark(entry, replayed?.reason ?? '', true), stands?.place ? mark(stands.place, comesNext(stands)) : null],
    hints: ['a history that `pat run` writes is accepted with the program that it ran; this one was changed, or is of another one'],
    doc: chapter(RUNNING, 'Replays'),
  };
}
function comesNext({ thread, name, locals, act }) {
  const steps = locals ? `after ${plural(locals, 'local step')}` : 'without a local step';
  return `thread ${thread} (${name}) comes here next, ${steps}${act ? `: ${act}` : ''}`;
}
/** The line of an entry, with its place. */
function entryAt(source, number) {
  const history = /^%%history\n/m.exec(source.text);
  let index = history.index + history[0].length;
  for (let entry = 0; entry < number; entry++) index = source.text.indexOf('\n', index) + 1;
  const end = source.text.indexOf('\n', index), line = source.text.slice(index, end < 0 ? undefined : end);
  return { line, a: source.offset(index), z: source.offset(index + line.length) };
}
