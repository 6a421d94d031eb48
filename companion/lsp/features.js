// What an editor asks of a text: problems, what stands under the cursor, where it comes from, other names for it, layout, and an outline.
// Each takes a TextDocument; `found` is what `pat derive` wrote of the newest text that it accepted.

import { RESERVED, Source, parse, spellType } from '../parse.js';
import { isMailbox, resolve } from '../names.js';
import { isOpen, readVerdict } from '../pat.js';
import { explain } from '../explain/explain.js';
import { format } from '../format.js';
import { speller } from '../types.js';
import { Failure, INVALID_PARAMS, REQUEST_FAILED } from './connection.js';

const ERROR = 1, WARNING = 2, SYMBOL = { interface: 11, message: 22, function: 12 };

// -------------------------------------------------------------------------------------------------------------- problems

export function diagnosticsOf(document, { status, text, fault }) {
  if (fault) return [{ range: document.rangeOf({ a: 0, z: 0 }), severity: WARNING, source: 'pat', message: `pat was asked: ${fault}` }];
  if (status === 0) return [];
  const verdict = readVerdict(text), said = explain(document.source, verdict) ?? { headline: verdict.line, marks: [], notes: [], hints: [] };
  const primary = said.marks.find(mark => mark.primary), place = primary?.place ?? verdict.place ?? { a: 0, z: 0 };
  return [{
    range: document.rangeOf(place), severity: isOpen(verdict) ? WARNING : ERROR, source: 'pat',
    code: verdict.rule ?? verdict.kind,
    message: [said.headline, primary?.label, ...said.notes, ...said.hints.map(hint => `hint: ${hint}`)].filter(Boolean).join('\n'),
    relatedInformation: said.marks.filter(mark => mark !== primary && mark.label).map(mark => ({
      location: { uri: document.uri, range: document.rangeOf(mark.place) }, message: mark.label })),
  }];
}

// ------------------------------------------------------------------------------------------------------ under the cursor

const holds = ({ a, z }, offset) => a <= offset && offset <= z;
const placeOf = ({ a, z }) => ({ a, z });

/** {place, binder} or {place, what, to}: a variable, or a name of the program's heads with its declaration. */
function nameAt(document, position) {
  const { tree } = document;
  if (!tree) return null;
  const offset = document.offsetOf(position), { names, program } = tree;
  const use = names.uses.find(one => holds(one, offset)), binder = names.binders.find(one => holds(one, offset));
  if (use || binder) return { place: placeOf(use ?? binder), binder: use?.binder ?? binder };
  const reference = names.references.find(one => one.to && holds(one, offset));
  if (reference) return { place: placeOf(reference), what: reference.what, to: reference.to };
  for (const one of program.declarations) {
    if (holds(one.name, offset)) return { place: placeOf(one.name), what: one.k === 'interface' ? 'interface' : 'function', to: one };
    const message = one.messages?.find(({ name }) => holds(name, offset));
    if (message) return { place: placeOf(message.name), what: 'message', to: message };
  }
  return null;
}

export function hover(document, position, found) {
  const name = nameAt(document, position);
  if (!name) return null;
  const said = name.binder ? sayBinder(document, name.binder, found) : sayDeclaration(document, name, found);
  return said && { contents: { kind: 'markdown', value: `\`\`\`pat\n${said}\n\`\`\`` }, range: document.rangeOf(name.place) };
}
/** Spells types, with the patterns that were found where they are up to date. */
function spellerOf({ tree: { program } }, found) {
  if (!found) return spellType;
  const spell = speller(program, found);
  return type => spell(type).map(part => part.text).join('');
}
function sayBinder(document, { name, kind, what, parameter }, found) {
  if (what === 'parameter') return `${name}: ${spellerOf(document, found)(parameter.type)}`;
  if (!isMailbox(kind)) return `${name}: ${kind?.base ?? '?'}`;
  return `${name}: ${kind.pattern ? spellType(kind) : kind.interface + (kind.mark ?? '')}`;
}
function sayDeclaration(document, { what, to }, found) {
  if (what === 'function') {
    const spell = spellerOf(document, found), parameters = to.parameters.map(({ name, type }) => `${name.text}: ${spell(type)}`);
    return `def ${to.name.text}(${parameters.join(', ')}): ${spell(to.result)}`;
  }
  const spell = message => `${message.name.text}(${message.payloads.map(spellType).join(', ')})`;
  return what === 'message' ? spell(to) : `interface ${to.name.text} { ${to.messages.map(spell).join(', ')} }`;
}

export function definition(document, position) {
  const name = nameAt(document, position), target = name && (name.binder ?? name.to?.name);
  return target ? { uri: document.uri, range: document.rangeOf(target) } : null;
}

// ----------------------------------------------------------------------------------------------------------------- names

const NAME = /^[\p{XID_Start}_]\p{XID_Continue}*$/u;
const isName = text => typeof text === 'string' && NAME.test(text) && !RESERVED.has(text);

export function prepareRename(document, position) {
  const name = nameAt(document, position);
  return name?.binder ? { range: document.rangeOf(name.place), placeholder: name.binder.name } : null;
}
/** A new name for a variable, in its function. It is refused where the program would mean something else afterwards. */
export function rename(document, position, newName) {
  const name = nameAt(document, position);
  if (!name?.binder) throw new Failure(REQUEST_FAILED, 'only the names of variables can be changed here');
  if (!isName(newName)) throw new Failure(INVALID_PARAMS, `${newName} is no name`);
  const places = placesOf(document.tree.names, name.binder);
  const edits = places.map(place => ({ range: document.rangeOf(place), newText: newName }));
  if (!meansTheSame(document, places, newName)) throw new Failure(REQUEST_FAILED, `${newName} would be taken for another variable`);
  return { changes: { [document.uri]: edits } };
}
const placesOf = (names, binder) => [binder, ...names.usesOf(binder)].map(placeOf).sort((one, other) => one.a - other.a);

/** Whether each use belongs to the same binder as before, once the places have the new name. */
function meansTheSame({ source, tree }, places, newName) {
  const texts = [];
  let end = 0;
  for (const { a, z } of places) { texts.push(source.slice({ a: end, z: a }), newName); end = z; }
  const changed = parse(new Source(texts.join('') + source.slice({ a: end, z: source.bytes.length })));
  return wiring(tree.names) === wiring(resolve(changed));
}
/** Which binder each use has, by their order in the text. */
function wiring({ binders, uses }) {
  const inOrder = [...binders].sort((one, other) => one.a - other.a), number = new Map(inOrder.map((binder, index) => [binder, index]));
  return [...uses].sort((one, other) => one.a - other.a).map(use => number.get(use.binder)).join(' ');
}

// --------------------------------------------------------------------------------------------------- layout, and outline

export function formatting(document) {
  if (!document.tree) throw new Failure(REQUEST_FAILED, 'this is no program, so it stays as it is');
  const text = format(document.tree.program);
  return text === document.text ? [] : [{ range: document.wholeRange, newText: text }];
}

export function symbols(document) {
  if (!document.tree) return [];
  const symbol = (kind, node, children = []) => ({ name: node.name.text, kind: SYMBOL[kind], range: document.rangeOf(node),
    selectionRange: document.rangeOf(node.name), ...children.length ? { children } : {} });
  return document.tree.program.declarations.map(one => one.k === 'def' ? symbol('function', one)
    : symbol('interface', one, one.messages.map(message => symbol('message', message))));
}
