// Words for explanations: marks, counts, and what a use does to its mailbox, for people.

import { spellPattern } from '../parse.js';

export const LANGUAGE = 'docs/LANGUAGE.md', IDIOMS = 'docs/IDIOMS.md';
/** A chapter of a page, as a reader finds it. */
export const chapter = (page, title) => `${page}, "${title}"`;
export const CHECK = chapter(LANGUAGE, 'What `check` answers, and what to write then');
export const NAMES = chapter(LANGUAGE, 'Names and kinds');

export const mark = (place, label, primary = false) => place && { place: { a: place.a, z: place.z }, label, primary };
export const code = text => '`' + text + '`';

const NUMBERS = ['no', 'one', 'two', 'three', 'four', 'five', 'six', 'seven', 'eight'];
export const number = count => NUMBERS[count] ?? count.toLocaleString('en');
export const plural = (count, one, more = one + 's') => `${count.toLocaleString('en')} ${count === 1 ? one : more}`;
const listed = (parts, last) => parts.length < 2 ? parts.join('') : parts.slice(0, -1).join(', ') + last + parts.at(-1);
export const and = parts => listed(parts, ' and ');
export const or = parts => listed(parts, ' or ');

/** A word for people: "one Close and two Put". */
export function sayWord(word) {
  const counts = new Map();
  for (const tag of word) counts.set(tag, (counts.get(tag) ?? 0) + 1);
  return counts.size ? and([...counts].map(([tag, count]) => `${number(count)} ${tag}`)) : 'nothing';
}

export const say = pattern => typeof pattern === 'string' ? pattern : spellPattern(pattern);
const LONGEST_PATTERN = 56, KEPT_OF_LONGER = 48;
/** A pattern in a sentence: a long one is cut, behind a whole part. */
export const short = text => text.length > LONGEST_PATTERN
  ? text.slice(0, KEPT_OF_LONGER).replace(/[^\p{XID_Continue})]+$/u, '') + ' ..' : text;
const LONGEST_CODE = 48;
/** Code in a sentence, on one line. */
export function shortCode(text) {
  const line = text.replace(/\s+/g, ' ');
  return line.length > LONGEST_CODE ? line.slice(0, LONGEST_CODE - 4) + ' ..' : line;
}

/** The name that takes a value on: of the `let` that it is bound by, through branches and bodies. */
function boundAs(term) {
  for (let one = term; one?.up; one = one.up) {
    if (one.up.k === 'let' && one.up.bound === one) return one.up.name?.text ?? null;
    if (one.up.k === 'spawn') return null;
  }
  return null;
}

/** What a use does to its mailbox, as a clause without a subject. */
export function did(use) {
  const right = use.mark === '?' ? 'the right to receive' : 'a right to send';
  switch (use.how) {
    case 'send': return `${use.tag} is sent to it`;
    case 'payload': return `${right} goes away in ${use.tag}`;
    case 'call': return `${right} goes to ${use.callee}(..)`;
    case 'guard': return 'it is received from';
    case 'free': return 'it is freed';
    case 'value': {
      const name = boundAs(use.term);
      return name ? `from here on it is called ${code(name)}` : 'it is given back as the result';
    }
    default: return 'it is used';
  }
}

/** Where a name comes from. */
export function originOf(binder) {
  const name = code(binder.name);
  switch (binder.what) {
    case 'let': return `${name} is from here`;
    case 'payload': return `${name} came in ${binder.tag}`;
    case 'from': return `${name} is the mailbox with the rest`;
    default: return `${name} is a parameter of ${binder.of.name.text}`;
  }
}

/** The candidate that is spelled most like a name, if one is near; names of one or two letters have none. */
export function nearest(name, candidates) {
  let best = null, least = name.length < 3 ? 0 : Math.floor(name.length / 3) + 1;
  for (const one of candidates) {
    const far = distance(name, one);
    if (one !== name && far < least) { best = one; least = far; }
  }
  return best;
}
/** How many letters have to be put in, taken out or changed. */
function distance(one, other) {
  let row = [...Array(other.length + 1).keys()];
  for (let i = 1; i <= one.length; i++) {
    const next = [i];
    for (let j = 1; j <= other.length; j++)
      next.push(Math.min(row[j] + 1, next[j - 1] + 1, row[j - 1] + (one[i - 1] !== other[j - 1])));
    row = next;
  }
  return row[other.length];
}
