// That a word may come where only a pattern is allowed: what it has too much or too little, and the uses that it comes from.

import { parsePattern } from '../parse.js';
import { within } from '../names.js';
import { smallWords } from '../words.js';
import { code, did, mark, number, or, say, sayWord, short } from './say.js';

const MOST_SOURCES = 8, MOST_WAYS = 3;    // marks
const LARGEST_TRIED = 8;                  // messages

export class Claim {
  /** `found` is from wordOf, or null; then the verdict's own word and pattern are taken. */
  constructor({ verdict, names, place, binder, term }, found) {
    Object.assign(this, { names, place, binder, term: binder ? null : term });
    this.word = found?.word ?? verdict.word;
    this.allowed = found?.constraint.right ?? parsePattern(verdict.pattern);
    this.pattern = short(say(this.allowed));
    this.who = found?.constraint.who ?? this.binder ?? (this.term && names.nameOfLet(this.term)) ?? null;
    this.name = this.who ? code(this.who.name) : 'the mailbox';
    Object.assign(this, against(this.word, this.allowed));
    this.nothing = !this.word.length;
    // Too little rather than too much: something could be added, and no smaller part is too much already.
    this.lacks = this.missing !== null && !(this.surplus?.length && this.surplus.length < this.missing.length);
    this.leaves = found?.leaves ?? [];
    this.all = found?.all ? say(found.all) : null;
    this.sources = [...this.sourceMarks(), ...this.wayMarks()];
  }
  get holds() { return sayWord(this.word); }
  get little() { return this.nothing || this.lacks; }

  // ------------------------------------------------------------------------------------------- where the word comes from

  /** A mark for each place from which messages of the word come. */
  sourceMarks() {
    const found = new Map();
    for (const { tag, leaf } of this.leaves) {
      const label = leaf && leaf.a !== undefined ? this.sayLeaf(tag, leaf) : null, key = label && `${leaf.a} ${label}`;
      if (key && found.has(key)) found.get(key).count++;
      else if (key) found.set(key, { leaf, label, count: 1 });
    }
    return [...found.values()].slice(0, MOST_SOURCES)
      .map(({ leaf, label, count }) => mark(leaf, label + (count > 1 ? `, ${number(count)} of them` : '')));
  }
  /** The calls by which they came there: the outermost ones, and of a long way the last one too. */
  wayMarks() {
    const found = new Map();
    for (const { tag, leaf, ways } of this.leaves) {
      if (leaf?.a === undefined || tag === null && leaf.how !== 'taken' && leaf.how !== 'branch') continue;
      const shown = ways.length > MOST_WAYS ? [...ways.slice(0, MOST_WAYS - 1), ways.at(-1)] : ways;
      for (const use of shown) found.set(use.a, mark(use, sayWay(use)));
    }
    return [...found.values()].slice(0, MOST_SOURCES);
  }
  sayLeaf(tag, leaf) {
    switch (leaf.how) {
      case 'branch': return this.little ? 'on this branch nothing is sent' + this.toAnother(leaf.binder) : null;
      case 'taken': return this.little ? `once ${leaf.tag} is taken here, ${this.nothing ? 'nothing' : 'that'} is left` : null;
      case 'send': return `${tag} is sent here`;
      case 'payload': return `a right to send ${tag} goes away here, in ${leaf.tag}`;
      case 'call': return `a right to send ${tag} goes away here, to ${leaf.callee}(..)`;
      case 'pattern': return this.names.terms.some(term => term.k === 'guard' && within(leaf, term.pattern))
        ? `behind this guard ${tag} may still come` : `this type says that ${tag} may come`;
      default: return `a right to send ${tag} goes away here`;
    }
  }
  /** Under which other name the mailbox stands there, where it came by calls. */
  toAnother(binder) { return binder && binder !== this.who ? ` to ${code(binder.name)}, which is the same mailbox` : ''; }
  uses(most) { return this.who ? this.names.usesOf(this.who).slice(0, most).map(use => mark(use, did(use))) : []; }

  // ------------------------------------------------------------------------------------------------------------- in words

  sayMissing() {
    if (this.others.length < 2) return sayWord(this.missing);
    return this.missing.length > 1 ? `${number(this.missing.length)} more messages` : `one ${or([...new Set(this.others.flat())])}`;
  }
  headline() {
    if (this.nothing) return `${this.name} waits for ${this.pattern}, and it may be that nothing comes`;
    const { name, surplus } = this;
    if (this.lacks) return `${this.sayMissing()} that ${this.missing.length > 1 ? 'are' : 'is'} expected may never come to ${name}`;
    if (surplus?.length && surplus.length < this.word.length) return `${sayWord(surplus)} too many may come to ${name}`;
    if (this.pattern === '1') return `${this.holds} may come to ${this.name}, where nothing may come any more`;
    return `${this.holds} may come to ${this.name}, and ${this.pattern} is expected`;
  }
}
const sayWay = use => use.how === 'call' && use.mark === '!' ? `by way of this call of ${use.callee}` : did(use);

// ----------------------------------------------------------------------------------------------- a word against a pattern

const count = (word, tag) => word.filter(one => one === tag).length;
const lies = (one, other) => one.every(tag => count(one, tag) <= count(other, tag));
function without(word, other) {
  const rest = [...word];
  for (const tag of other) {
    const at = rest.indexOf(tag);
    if (at >= 0) rest.splice(at, 1);
  }
  return rest;
}
/**
 * What a word has too much of against a pattern, and what it lacks: {missing, others, surplus}, lists of tags, or null where it
 * can't be said. `others` are all smallest lists that may be missing.
 */
function against(word, pattern) {
  const words = smallWords(pattern, Math.min(word.length + 2, LARGEST_TRIED));
  const above = words.filter(one => one.length > word.length && lies(word, one)), below = words.filter(one => lies(one, word)).at(-1);
  const others = above.filter(one => one.length === above[0].length).map(one => without(one, word));
  return { missing: others[0] ?? null, others, surplus: below ? without(word, below) : null };
}
