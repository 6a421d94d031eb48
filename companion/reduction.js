// Which steps a search has to try at a configuration, so that it finds all ends. All steps that can be taken would be right; most of
// them only exchange what doesn't touch.
//
// Some steps are chosen: steps that can be taken here, and some that can't yet, such as the receive of a message that is still to come.
// Two things are asked of them. (1) No run of steps that aren't chosen makes one possible that is chosen and can't be taken here.
// (2) A chosen step that can be taken here still can after such a run; and taken first, with the run behind it, it leads to the same
// configuration, but for numbers. Then each run to an end has a chosen step: one can be taken here, could still be by (2), and at an end
// nothing can. Its first chosen step can be taken here, by (1), and may as well be the very first, by (2). The rest is a run to the same
// end, shorter by one; and so on from there. So whoever tries the chosen ones that can be taken finds every end, and a shortest run to it.
// (Such sets are known as stubborn sets.)
//
// - Making a mailbox, sending, spawning and ending are each chosen alone: nothing disables them, and what they do disables nothing. A
//   send adds a message that may be received later or never; nobody could have freed its mailbox meanwhile, since the sender knows it.
//   Freeing is chosen alone, too: nobody else knows the mailbox. So is printing, where the order of lines isn't looked at. Where it is,
//   printing is chosen with the next steps of all threads that may print.
// - All receives of a thread at a guard are chosen together, those of messages still to come as well. Nobody else receives there. By (1),
//   the next steps of threads by which a message may come that the guard takes are chosen too: of those that know the mailbox, or know one
//   in which a message brings it. Types say what may come: the guard's pattern holds all that is in the mailbox and will still come while
//   the thread stands there. So this is right for accepted programs, in which nobody else receives, either.

import { partsOf } from './parse.js';

const LARGEST_RESIDUAL = 2000;              // letters; of a larger one it is taken that anything may come

export class Reduction {
  constructor(program, { outputs, plain = false }) {
    Object.assign(this, { program, outputs, plain });
    this.printing = printingFunctions(program); this.mayPrintOf = new WeakMap(); this.residuals = new Map(); this.patterns = new Map();
  }

  /** Steps {thread, act, message} to try; none exactly where no step can be taken. */
  choose(configuration) {
    if (this.plain) return [...configuration.threads.values()].flatMap(thread => stepsOf(configuration, thread));
    const alone = this.alone(configuration);
    if (alone) return [alone];
    let best = null;
    for (const thread of configuration.threads.values()) {
      if (!stepsOf(configuration, thread).length) continue;
      const steps = [...this.together(configuration, thread)].flatMap(one => stepsOf(configuration, one));
      if (!best || steps.length < best.length) best = steps;
      if (best.length === 1) break;
    }
    return best ?? [];
  }
  /** A step that touches nothing. */
  alone(configuration) {
    for (const thread of configuration.threads.values()) {
      const { next } = thread;
      if (['new', 'send', 'spawn', 'end'].includes(next) || next === 'print' && !this.outputs) return { thread, act: next };
      if (canFree(configuration, thread)) return { thread, act: 'free' };
    }
    return null;
  }
  /** The threads whose steps have to be chosen if those of `first` are. */
  together(configuration, first) {
    const chosen = new Set([first]);
    for (const thread of chosen) this.needed(configuration, thread).forEach(other => chosen.add(other));
    return chosen;
  }
  needed(configuration, thread) {
    if (thread.next === 'print') return [...configuration.threads.values()].filter(other => this.mayPrint(other));
    if (thread.next === 'guard') {
      const takes = thread.control.clauses.filter(clause => clause.k === 'receive').map(clause => clause.tag.text);
      const there = configuration.pendingIn(thread.target).map(message => message.tag), stuck = !there.some(tag => takes.includes(tag));
      const frees = stuck && thread.control.clauses.some(clause => clause.k === 'free');
      if (!frees && !this.mayCome(thread.control.pattern, there).some(tag => takes.includes(tag))) return [];
    }
    return whoKnows(configuration, thread);
  }

  // ----------------------------------------------------------------------------------------------------- what may come

  /** The tags that a pattern has besides the messages that are there. */
  mayCome(pattern, there) {
    let left = this.patterns.get(pattern);
    if (!left) this.patterns.set(pattern, left = ofTree(pattern));
    for (const tag of [...there].sort()) left = this.without(left, tag);
    return left.tags;
  }
  without(pattern, tag) {
    const key = `${tag}/${pattern.text}`;
    if (!this.residuals.has(key)) this.residuals.set(key, residual(pattern, tag));
    return this.residuals.get(key);
  }

  // ------------------------------------------------------------------------------------------------------------ prints

  mayPrint(thread) {
    if (thread.control && this.prints(thread.control)) return true;
    for (let frame = thread.frames; frame; frame = frame.below) if (this.prints(frame.body)) return true;
    return false;
  }
  prints(term) {
    if (!this.mayPrintOf.has(term)) this.mayPrintOf.set(term, printsIn(term, this.printing));
    return this.mayPrintOf.get(term);
  }
}

const canFree = (configuration, thread) => ['guard', 'free'].includes(thread.next) && configuration.whyNotFree(thread) === null;

/** All steps that a thread can take. */
export function stepsOf(configuration, thread) {
  const { next } = thread;
  if (next === null) return [];
  if (!['guard', 'free'].includes(next)) return [{ thread, act: next }];
  if (canFree(configuration, thread)) return [{ thread, act: 'free' }];
  return next === 'free' ? [] : configuration.receivable(thread).map(message => ({ thread, act: 'receive', message }));
}

/** The other threads that know the mailbox at which a thread stands, or may come to know it by messages that are there. */
function whoKnows(configuration, thread) {
  const known = new Set([thread.target]);
  for (const mailbox of known) for (const message of configuration.messages.values()) {
    if (message.args.includes(mailbox)) known.add(message.mailbox);
  }
  return [...configuration.threads.values()].filter(other => other !== thread && [...other.held].some(mailbox => known.has(mailbox)));
}

// ------------------------------------------------------------------------------------------------------ static: who prints

function printingFunctions(program) {
  const printing = new Set();
  for (let size = -1; size < printing.size;) {
    size = printing.size;
    for (const [name, one] of program.functions) if (printsIn(one.body, printing)) printing.add(name);
  }
  return printing;
}
function printsIn(term, printing) {
  const open = [term];
  while (open.length) {
    const one = open.pop();
    if (one.k === 'print' || one.k === 'call' && printing.has(one.name.text)) return true;
    open.push(...partsOf(one));
  }
  return false;
}

// -------------------------------------------------------------------------------------------- patterns and their residuals

// {k, text, tags}: 0 has no word; `any` is a pattern that has grown too large, of which these tags may come.
const ZERO = { k: '0', text: '0', tags: [] }, ONE = { k: '1', text: '1', tags: [] };
const union = (one, other) => [...new Set([...one, ...other])].sort();
const tagOf = tag => ({ k: 'tag', text: tag, tags: [tag] });
const starOf = of => of.tags.length ? { k: '*', of, text: `*(${of.text})`, tags: of.tags } : ONE;
function bounded(pattern) {
  return pattern.text.length <= LARGEST_RESIDUAL ? pattern : { k: 'any', text: `any(${pattern.tags.join(' ')})`, tags: pattern.tags };
}
function productOf(left, right) {
  if (left.k === '0' || right.k === '0') return ZERO;
  if (left.k === '1') return right;
  if (right.k === '1') return left;
  return bounded({ k: '.', left, right, text: `(${left.text}.${right.text})`, tags: union(left.tags, right.tags) });
}
function sumOf(left, right) {
  if (left.k === '0' || left.text === right.text) return right;
  if (right.k === '0') return left;
  return bounded({ k: '+', left, right, text: `(${left.text}+${right.text})`, tags: union(left.tags, right.tags) });
}
function ofTree(tree) {
  switch (tree.k) {
    case '0': return ZERO;
    case '1': return ONE;
    case 'tag': return tagOf(tree.tag);
    case '*': return starOf(ofTree(tree.of));
    case '.': return productOf(ofTree(tree.left), ofTree(tree.right));
    default: return sumOf(ofTree(tree.left), ofTree(tree.right));
  }
}
/** What is left of a pattern once a message of this tag is taken out. */
function residual(pattern, tag) {
  switch (pattern.k) {
    case 'tag': return pattern.text === tag ? ONE : ZERO;
    case '*': return productOf(residual(pattern.of, tag), pattern);
    case '.': return sumOf(productOf(residual(pattern.left, tag), pattern.right), productOf(pattern.left, residual(pattern.right, tag)));
    case '+': return sumOf(residual(pattern.left, tag), residual(pattern.right, tag));
    case 'any': return pattern;
    default: return ZERO;
  }
}
