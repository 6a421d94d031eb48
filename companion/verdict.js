// What `pat` answers, taken apart: the first line of a refusal.

const PLACED = new RegExp('^(untypable|refuted|unusable|undecided|unknown name|twice|wrong arity|wrong kind|foreign tag'
  + '|empty sending type|too many tags|syntax error|number too wide|too deep|bad text) at (\\d+)(?:-(\\d+))?(?:: (.*))?$');
const OTHERS = [
  [/^too large: (\S+)$/, ([, name]) => ({ kind: 'too large', interface: name })],
  [/^rejected at node (\d+): (\S+)$/, ([, node, rule]) => ({ kind: 'rejected', node: Number(node), rule })],
  [/^bad checkpoint: (\S+)$/, ([, rule]) => ({ kind: 'bad checkpoint', rule })],
  [/^refused at entry (\d+)$/, ([, entry]) => ({ kind: 'refused', entry: Number(entry) })],
];
/** Where `pat` found neither a typing nor that there is none: it can't tell, and the program may be right. */
const OPEN = new Set(['undecided', 'too large', 'unusable']);

/** {kind, line} and, where the line has them, place, rule, word (a list of tags), pattern, interface, node, entry. */
export function readVerdict(text) {
  const line = text.split('\n', 1)[0], found = PLACED.exec(line);
  if (found) return { line, ...placed(found) };
  for (const [form, read] of OTHERS) {
    const match = form.exec(line);
    if (match) return { line, ...read(match) };
  }
  return { line, kind: line };
}
function placed([, kind, a, z, rest]) {
  const verdict = { kind, place: { a: Number(a), z: Number(z ?? a) } };
  if (kind === 'untypable') return { ...verdict, rule: rest };
  if (kind !== 'refuted') return verdict;
  const [, word, pattern] = /^word (.*?) not in (.*)$/.exec(rest);
  return { ...verdict, word: word === '1' ? [] : word.split(' '), pattern };
}

/** Whether a verdict says that `pat` can't tell, and not that the program is wrong. */
export const isOpen = verdict => OPEN.has(verdict.kind);
