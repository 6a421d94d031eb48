// The editor: CodeMirror with the language's colours, and the places that are lit up in it.

import { RESERVED } from '../companion/parse.js';
import { defineMode } from './mode.js';

const INDENT = '    ', MARGIN = 80;
// Of a line longer than this the beginning isn't measured: CodeMirror has enough to do with it.
const MOST_WRAPPED = 200_000;

const keys = {
  Tab: editor => editor.somethingSelected() ? editor.indentSelection('add') : editor.replaceSelection(INDENT, 'end'),
  'Shift-Tab': editor => editor.indentSelection('subtract'),
};
/** Esc gives Tab back to the browser until something else is typed, so that the keyboard gets out. */
const released = { Tab: false, 'Shift-Tab': false };

export class Editor {
  constructor(CodeMirror, place) {
    defineMode(CodeMirror, RESERVED);
    this.editor = CodeMirror(place, {
      mode: 'pat', theme: 'pat', lineNumbers: true, lineWrapping: true, indentUnit: INDENT.length, spellcheck: false,
      screenReaderLabel: 'Program. Escape and then Tab leaves the editor', extraKeys: { ...keys, Esc: () => this.release() },
    });
    this.marks = []; this.lit = [];
    this.editor.on('renderLine', (_, { text }, node) => this.hang(CodeMirror, text, node));
    this.editor.on('blur', () => this.editor.setOption('extraKeys', { ...keys, Esc: () => this.release() }));
    this.editor.refresh();
  }
  release() { this.editor.setOption('extraKeys', released); }
  /** A line that is wrapped goes on below its own beginning. */
  hang(CodeMirror, text, node) {
    if (text.length > MOST_WRAPPED) return;
    const indent = (CodeMirror.countColumn(text, /\S/.exec(text)?.index ?? 0, INDENT.length) + 2) * this.editor.defaultCharWidth();
    node.style.textIndent = `-${indent}px`;
    node.style.paddingLeft = `${6 + indent}px`;
  }
  /** On telephones CodeMirror reads what was typed a moment later, and would lose it where the line is drawn anew before. */
  flush() {
    const { input } = this.editor.display;
    if (!input.readDOMTimeout) return;
    clearTimeout(input.readDOMTimeout);
    input.readDOMTimeout = null;
    input.updateFromDOM();
  }
  get text() { this.flush(); return this.editor.getValue(); }
  set text(text) {
    this.editor.setValue(text);
    this.editor.clearHistory();
    this.editor.scrollTo(0, 0);
  }
  /** Another layout of the same program: it can be undone. */
  replace(text) {
    const at = this.editor.getCursor();
    this.editor.replaceRange(text, { line: 0, ch: 0 }, { line: this.editor.lineCount(), ch: 0 });
    this.editor.setCursor(at);
  }
  onChange(listen) { this.editor.on('change', (_, { origin }) => listen(origin)); }

  range({ from, to }) { return [this.editor.posFromIndex(from), this.editor.posFromIndex(Math.max(to, from + 1))]; }
  lineClass(line, where, name) {
    this.editor.addLineClass(line, where, name);
    return { clear: () => this.editor.removeLineClass(line, where, name) };
  }
  /** Marks the text of a place, of several lines the first alone, and beside all its lines a bar. */
  mark(place, options, bar) {
    const [from, to] = this.range(place), isLong = to.line > from.line;
    const end = isLong ? { line: from.line, ch: this.editor.getLine(from.line).length } : to;
    const made = [this.editor.markText(from, end, options)];
    if (isLong) this.editor.eachLine(from.line, to.line + 1, line => { made.push(this.lineClass(line, 'wrap', bar)); });
    return made;
  }
  unmark() { this.flush(); for (const one of this.marks.splice(0)) one.clear(); }
  /** Marks places {from, to, label, primary, number}. */
  show(places) {
    this.unmark();
    for (const place of places) this.marks.push(...this.mark(place, {
      className: place.primary ? 'first' : 'second', endStyle: place.number ? `number-${place.number}` : undefined,
      attributes: place.label ? { title: place.label.replace(/`/g, '') } : undefined,
    }, place.primary ? 'bar-first' : 'bar-second'));
  }
  darken() { this.flush(); for (const one of this.lit.splice(0)) one.clear(); }
  /** Lights one place up, and brings it into view where that is wanted. */
  light(place, isShown = false) {
    this.darken();
    this.lit = this.mark(place, { className: 'lit' }, 'bar-lit');
    const [from] = this.range(place);
    this.lit.push(this.lineClass(this.editor.getLineHandle(from.line), 'background', 'lit-line'));
    if (isShown) this.editor.scrollIntoView({ from, to: from }, MARGIN);
  }
  /** What a button does that stands for a place. */
  leads(place) {
    return {
      onmouseenter: () => this.light(place), onmouseleave: () => this.darken(),
      onfocus: () => this.light(place), onblur: () => this.darken(), onclick: () => this.light(place, true),
    };
  }
}
