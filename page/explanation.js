// An explanation as elements: the headline, the places as a list, notes and hints.

import { element, note, spelled, withCapital } from './dom.js';

const key = ({ from, to, isEvidence }) => `${isEvidence} ${from}-${to}`;

/** The marks with numbers, one for each place; a single place needs none. */
export function numbered(marks) {
  const places = [...new Set(marks.map(key))];
  return marks.map(mark => ({ ...mark, number: places.length > 1 ? places.indexOf(key(mark)) + 1 : null }));
}
/** One mark for each place, the first. */
export const onceEach = marks => marks.filter((mark, index) => marks.findIndex(other => key(other) === key(mark)) === index);

/** `leads(mark)` gives the listeners of the button that stands for a mark. */
export function explanationOf(explanation, leads) {
  const kind = mark => mark.primary ? 'where is-first' : 'where';
  const item = mark => element('li', {}, element('button', { class: kind(mark), type: 'button', ...leads(mark) },
    element('i', {}, mark.number ? String(mark.number) : '•'), element('span', {}, `line ${mark.line}`),
    element('div', {}, ...spelled(mark.label || 'here'))));
  return [
    ...(explanation.headline ? [element('h2', {}, ...spelled(withCapital(explanation.headline)))] : []),
    element('ul', { class: 'marks' }, ...numbered(explanation.marks).map(item)),
    ...explanation.notes.map(text => note(withCapital(text))),
    ...explanation.hints.map(text => note(withCapital(text), 'hint')),
    ...(explanation.doc ? [note('See ' + explanation.doc.replace(/`/g, ''), 'doc')] : []),
  ];
}
