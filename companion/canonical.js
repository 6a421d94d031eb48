// A key for each configuration: two have the same key only if they are the same but for the numbers and names of threads, mailboxes and
// messages, and then the same can happen from both. (Of some that are the same in this sense the keys may differ; then a search takes
// longer, and that is all.)
//
// Threads and messages are things that refer to mailboxes. A mailbox gets a colour, a hash, from the things that refer to it, and from
// which place in them; a thing gets one from what it is and the colours that it refers to; and so on, until no more mailboxes are told
// apart. Mailboxes that still look alike are then told apart one after another. By their colours the mailboxes are ordered, and the key
// spells all things with the mailboxes' places in this order: so it says the whole configuration, whatever the hashes are.

import { termsInOrder } from './parse.js';
import { Mailbox } from './machine.js';

export class Keys {
  constructor(program) {
    this.termNumbers = new Map(); this.numbers = new Map(); this.shapes = new WeakMap();
    for (const { body } of program.functions.values()) for (const term of termsInOrder(body)) {
      this.termNumbers.set(term, this.termNumbers.size);
    }
  }
  /** The number of a text: the same for the same text as long as these keys are used. */
  numberOf(text) {
    let number = this.numbers.get(text);
    if (number === undefined) this.numbers.set(text, number = this.numbers.size);
    return number;
  }

  /** `more` is what else tells configurations apart. */
  keyOf(configuration, more = '') {
    const things = this.thingsOf(configuration), indexes = new Map();
    for (const { refers } of things) for (const mailbox of refers) if (!indexes.has(mailbox)) indexes.set(mailbox, indexes.size);
    const live = mailbox => configuration.live.has(mailbox), mailboxes = [...indexes.keys()];
    const referring = things.map(({ shape, refers }) => ({ shape, refers: refers.map(mailbox => indexes.get(mailbox)) }));
    const order = places(tellApart(mailboxes.map(mailbox => this.numberOf(`${mailbox.interface} ${live(mailbox)}`)), referring));
    const texts = referring.map(({ shape, refers }) => `${shape}:${refers.map(index => order[index]).join(',')}`);
    const kinds = mailboxes.map((mailbox, index) => live(mailbox) ? '' : `-${order[index]}`).join('');
    return `${texts.sort().join(' ')}|${configuration.live.size}${kinds}|${more}`;
  }

  // ------------------------------------------------------------------------------------------------------------ things

  /** {shape, refers}: what a thread or a message is but for its mailboxes, as a number, and these in their order. */
  thingsOf(configuration) {
    return [...[...configuration.threads.values()].map(thread => this.shapeOf(thread, () => this.threadShape(thread))),
      ...[...configuration.messages.values()].map(message => this.shapeOf(message, () => messageShape(message)))];
  }
  shapeOf(thing, make) {
    let known = this.shapes.get(thing);
    if (!known) {
      const { texts, refers } = make();
      this.shapes.set(thing, known = { shape: this.numberOf(texts.join(' ')), refers });
    }
    return known;
  }
  threadShape(thread) {
    const shape = new Shape('t');
    shape.texts.push(thread.control ? this.termNumbers.get(thread.control) : 'value');
    for (let frame = thread.frames; frame; frame = frame.below) shape.texts.push(this.termNumbers.get(frame.body));
    thread.forEachValue(value => shape.add(value));
    return shape;
  }
}
function messageShape({ mailbox, tag, args }) {
  const shape = new Shape(`m ${tag}`);
  [mailbox, ...args].forEach(value => shape.add(value));
  return shape;
}
class Shape {
  constructor(kind) { this.texts = [kind]; this.refers = []; }
  add(value) {
    if (value instanceof Mailbox) { this.refers.push(value); this.texts.push('#'); }
    else this.texts.push(typeof value === 'string' ? JSON.stringify(value) : String(value));
  }
}

// --------------------------------------------------------------------------------------------------------------- colours

const mix = (one, other) => {
  const mixed = Math.imul((one ^ other) + 0x7ed55d16, 0x9e3779b1);
  return (mixed ^ (mixed >>> 15)) + other | 0;
};
/** Colours, by the mailboxes' indexes, of which no two are the same. */
function tellApart(colours, things) {
  let told = refine(colours, things);
  for (let twin = aTwin(told); twin >= 0; twin = aTwin(told)) {
    told[twin] = mix(told[twin], 0);
    while (told.indexOf(told[twin]) !== told.lastIndexOf(told[twin])) told[twin] = told[twin] + 1 | 0;
    told = refine(told, things);
  }
  return told;
}
function refine(colours, things) {
  for (let told = -1, now = new Set(colours).size; told < now && now < colours.length; now = new Set(colours).size) {
    told = now;
    const next = colours.map(colour => mix(colour, 1));
    for (const { shape, refers } of things) {
      const colour = refers.reduce((mixed, index) => mix(mixed, colours[index]), shape);
      refers.forEach((index, place) => { next[index] = next[index] + mix(colour, place + 2) | 0; });
    }
    colours = next;
  }
  return colours;
}
/** The index of a colour that stands twice; -1 where there is none. */
function aTwin(colours) {
  const seen = new Set();
  return colours.findIndex(colour => { const twin = seen.has(colour); seen.add(colour); return twin; });
}
/** For each index its place in the order of the colours. */
function places(colours) {
  const order = [], sorted = colours.map((colour, index) => ({ colour, index })).sort((one, other) => one.colour - other.colour);
  sorted.forEach(({ index }, place) => { order[index] = place; });
  return order;
}
