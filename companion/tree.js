// What is asked of a program's tree: how patterns and types are spelled, and the parts of terms.

// How tightly a pattern's parts hold together: a looser one stands in brackets.
const SUM = 1, PRODUCT = 2, FACTOR = 3;

/** A pattern as it is spelled canonically. */
export function spellPattern(pattern, level = 0) {
  const bracket = (text, own) => own < level ? `(${text})` : text;
  switch (pattern.k) {
    case '0': case '1': return pattern.k;
    case '$': return '$' + pattern.variable;
    case 'tag': return pattern.tag;
    case '*': return bracket('*' + spellPattern(pattern.of, FACTOR), FACTOR);
    case '.': return bracket(spellPattern(pattern.left, PRODUCT) + '.' + spellPattern(pattern.right, FACTOR), PRODUCT);
    case '+': return bracket(spellPattern(pattern.left, SUM) + ' + ' + spellPattern(pattern.right, PRODUCT), SUM);
  }
}

export function spellType(type) {
  return type.base ?? type.interface + type.mark + (type.pattern ? spellPattern(type.pattern) : '');
}

/** The patterns that a pattern is made of. */
export function patternParts(pattern) {
  if (pattern.of) return [pattern.of];
  return pattern.left ? [pattern.left, pattern.right] : [];
}

/** The messages that a pattern names, each as often as it stands there. */
export const tagsOf = pattern => pattern.k === 'tag' ? [pattern.tag] : patternParts(pattern).flatMap(tagsOf);

/** The parts of a node that are terms, in the order of the text; of a guard those of its clauses. */
export function partsOf(term) {
  switch (term.k) {
    case 'let': return [term.bound, term.body];
    case 'if': return [term.then, term.other];
    case 'spawn': return [term.body];
    case 'guard': return term.clauses.filter(clause => clause.body).map(clause => clause.body);
    default: return [];
  }
}

/** A term and all below it, in the order of the text, a term before its parts. */
export function* termsInOrder(term) {
  const open = [term];
  while (open.length) {
    const one = open.pop();
    yield one;
    open.push(...partsOf(one).reverse());
  }
}

/** A term's first and last token, with the braces around it. */
export const firstToken = term => term.braces ? term.braces.first : term.first;
export const lastToken = term => term.braces ? term.braces.last : term.last;
