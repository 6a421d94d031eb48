// A verdict and its program become an explanation. `explain` makes it, `render` of render.js writes it as text with an excerpt. The
// line of `pat` stays as it is, and decides; this stands behind it, and says where and why. Nothing is printed here.

import { parse, Source, SyntaxProblem } from '../parse.js';
import { resolve } from '../names.js';
import { syntax, tooWide, tooDeep, tooLong } from './texts.js';
import { unknownName, foreignTag, wrongArity, twice } from './names.js';
import { wrongKind } from './kinds.js';
import { untypable } from './rules.js';
import { sides } from './words.js';
import { unusable, tooLarge } from './grown.js';
import { rejected, badCheckpoint, badText, refusedEntry } from './judged.js';
import { fromRows } from './rows.js';
import { code, mark, CHECK, NAMES } from './say.js';

/**
 * {kind, rule, verdict, headline, marks: [{place, label, primary}], notes, hints, doc}, or null for `accepted` and what else is no
 * refusal. Just one mark is primary, if there are any. `source` is the whole input as a Source: a program, or one with a derivation
 * or history behind it. `verdict` is from readVerdict. `replayed`, for `refused at entry I`, says how the threads stand there (step.js).
 */
export function explain(source, verdict, { replayed = null, words = {} } = {}) {
  if (!Object.hasOwn(KINDS, verdict.kind)) return null;
  const context = new Context(source, verdict, { replayed, words }), found = explained(context) ?? fromRows(context);
  return {
    kind: verdict.kind, rule: verdict.rule ?? null, verdict: verdict.line,
    headline: found.headline, marks: (found.marks ?? []).filter(one => one && one.place),
    notes: (found.notes ?? []).filter(Boolean), hints: (found.hints ?? []).filter(Boolean), doc: found.doc ?? CHECK,
  };
}
/** Undefined where no explanation is found: the tree can't be read, or isn't as the verdict says. */
function explained(context) {
  if (!context.program && !WITHOUT_TREE.has(context.verdict.kind)) return undefined;
  try { return KINDS[context.verdict.kind](context); } catch (problem) {
    if (problem instanceof TypeError || problem instanceof RangeError) return undefined;
    throw problem;
  }
}

/** What explanations look at. */
class Context {
  constructor(source, verdict, { replayed, words }) {
    Object.assign(this, { source, verdict, replayed, words, place: verdict.place, program: null, names: null, problem: null });
    const end = endOfProgram(source);
    this.programSource = end === null ? source : new Source(source.bytes.subarray(0, end), source.name);
    try {
      this.program = parse(this.programSource);
      this.names = resolve(this.program);
    } catch (problem) {
      if (!(problem instanceof SyntaxProblem) && !(problem instanceof RangeError)) throw problem;
      this.problem = problem;
    }
  }
  get term() { return this.names.termAt(this.place); }
  get binder() { return this.names.binderAt(this.place); }
}
const WITHOUT_TREE = new Set(['syntax error', 'number too wide', 'too deep', 'too long', 'bad text']);
function endOfProgram(source) {
  const found = /^%%(derivation|history)$/m.exec(source.text);
  return found ? source.offset(found.index) : null;
}

const emptySendingType = ({ place }) => ({
  headline: 'no message fits this pattern, so nobody could ever use this right', marks: [mark(place, '', true)],
  hints: ['0 is a case that can\'t come; for "nothing may be sent" write 1'], doc: NAMES,
});
const tooManyTags = ({ source, place }) => ({
  headline: `an interface may have 32 messages, and ${code(source.slice(place))} is the 33rd`, marks: [mark(place, '', true)],
  hints: ['split the interface in two'], doc: NAMES,
});

const KINDS = {
  'syntax error': syntax, 'number too wide': tooWide, 'too deep': tooDeep, 'too long': tooLong,
  'unknown name': unknownName, 'foreign tag': foreignTag, 'wrong arity': wrongArity, 'wrong kind': wrongKind, twice,
  'empty sending type': emptySendingType, 'too many tags': tooManyTags,
  untypable, refuted: sides, undecided: sides, unusable, 'too large': tooLarge,
  'bad text': badText, rejected, 'bad checkpoint': badCheckpoint, refused: refusedEntry,
};
/** The kinds of answers that have explanations. */
export const EXPLAINED = Object.keys(KINDS);
