// Rules of a guard's clauses: Payload and Covers of the answer `untypable`.

import { isMailbox, within } from '../names.js';
import { smallWords, tagsOf } from '../words.js';
import { beginsOtherwise, countedByTest } from './handed.js';
import { and, chapter, code, did, mark, originOf, say, sayWord, CHECK, IDIOMS } from './say.js';

/** A clause whose message brings a mailbox uses another one that isn't its own. */
export function payload({ term, names }) {
  for (const clause of term.clauses.filter(one => one.k === 'receive')) {
    const brought = clause.binders.filter(binder => isMailbox(binder.kind)), foreign = binder =>
      isMailbox(binder.kind) && !clause.own.has(binder) && !within(binder, clause.body);
    const use = brought.length ? names.uses.find(one => within(one, clause.body) && foreign(one.binder)) : null;
    if (use) return explainPayload(clause, brought, use);
  }
}
function explainPayload(clause, brought, use) {
  const { binder } = use, name = code(binder.name), tag = clause.tag.text, first = code(brought[0].name);
  const alike = brought.find(one => one.kind.interface === binder.kind.interface);
  const own = [...clause.names, clause.from].map(one => code(one.text)).join(', ');
  const why = alike ? `${code(alike.name)} may be the very mailbox that ${name} names`
    : `the rule doesn't look at interfaces: it takes ${first} for one that ${name} might name`;
  return {
    headline: `${name} may not be used in the clause for ${code(tag)}`,
    marks: [mark(use, `this is another mailbox: ${did(use)}`, true), mark(brought[0], `${tag} brings a mailbox`),
      mark(binder, originOf(binder))],
    notes: [`${why}; a clause whose message brings a mailbox uses only what it got (${own}) and mailboxes that it makes`],
    hints: [alike && use.mark === '!' ? `if the one that came is meant, write ${code(alike.name)}` : null,
      ...waysAround(binder, tag, brought[0])],
    doc: `${chapter(IDIOMS, 'An actor that has to keep other mailboxes')}; ${CHECK}: Payload`,
  };
}
function waysAround({ kind, name, what }, tag, brought) {
  const numbers = `let ${tag} bring a number instead of ${code(brought.name)}, and keep the mailboxes that may ask as parameters`
    + ` beside ${code(name)}`;
  if (kind.mark === '?') return [numbers, `or spawn a thread for the answer, which ${code(brought.name)} goes to`];
  return [numbers, what === 'let' ? `or make ${code(name)} in the clause, with new[${kind.interface}]`
    : `or let the one who sent ${tag} turn to ${code(name)} itself, and tell what came of it by a message that brings no mailbox`];
}

const LARGEST_TRIED = 4;                  // messages
/** Something may be in the mailbox for which there is no clause. */
export function covers({ term, names }) {
  const clauses = term.clauses.filter(clause => clause.tag).map(clause => clause.tag.text), name = code(term.mailbox.text);
  const free = term.clauses.some(clause => clause.k === 'free'), known = new Set(tagsOf(term.pattern));
  const word = smallWords(term.pattern, LARGEST_TRIED).find(one => one.length ? !one.some(tag => clauses.includes(tag)) : !free);
  const strange = term.clauses.find(clause => clause.tag && !known.has(clause.tag.text)), otherwise = beginsOtherwise(term, names);
  return {
    headline: `this guard has no clause for what may be in ${name}`,
    marks: [mark(term.pattern, sayUncovered(word), true),
      strange && mark(strange.tag, `the pattern doesn't expect ${strange.tag.text}, so that this clause is never taken`),
      otherwise?.mark],
    notes: [clauses.length ? `its clauses take ${and(clauses)}${free ? ', or nothing' : ''}` : null,
      word?.length ? 'a guard waits for a message of its clauses: if only others come, it waits for ever' : null],
    hints: otherwise ? [otherwise.hint] : word?.length ? hintsOfMessage(word[0], term, clauses)
      : [...hintsOfEmpty(term, strange), countedByTest(term, term.target, names)],
  };
}
function sayUncovered(word) {
  if (word === undefined) return 'it may hold something else';
  return word.length ? `it may hold ${sayWord(word)} and nothing else` : 'it may be empty';
}
const hintsOfEmpty = ({ pattern }, strange) => strange
  ? [`if one ${strange.tag.text} comes in the end, the pattern is ${bracketed(pattern)}.${strange.tag.text}, which is never empty`,
    'if none need come, add `free -> ..`']
  : ['add `free -> ..`, for the case that nothing more comes'];
function hintsOfMessage(tag, { pattern, mailbox }, clauses) {
  const names = `add a clause \`receive ${tag}(..) from ${mailbox.text} -> ..\``;
  const first = starsOf(pattern).find(one => clauses.includes(one));
  if (!first || !starsOf(pattern).includes(tag)) return [names, `or write a pattern in which ${tag} doesn't come alone`];
  return [names, `or, if each ${tag} belongs to one ${first} and both are sent in one function, write *(${first}.${tag}) for the two`,
    `or, where others send ${tag} than ${first}, let one side wait at a mailbox of its own: ${chapter(IDIOMS, 'Bounded buffers')}`];
}
const bracketed = pattern => pattern.k === '+' ? `(${say(pattern)})` : say(pattern);
/** The messages that a product has any number of. */
function starsOf(pattern) {
  if (pattern.k === '.') return [...starsOf(pattern.left), ...starsOf(pattern.right)];
  return pattern.k === '*' && pattern.of.k === 'tag' ? [pattern.of.tag] : [];
}
