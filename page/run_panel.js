// A run: what it printed, what was done, and its chart, side by side; one steps through it to and fro.

import { byId, element, note } from './dom.js';
import { explanationOf } from './explanation.js';

const COLOURS = 12, MOST_LINES = 2000;
// How small a chart may become to fit, and how much stays in view above and below a row.
const SMALLEST = 0.85, MARGIN = 40;
const LIST = 'What was done, an entry of the history a line';
const SVG = 'http://www.w3.org/2000/svg';

const sayDone = (steps, entries) => `All threads ended, after ${steps} steps and ${entries} entries of the history.`;
const colourOf = number => `c${number % COLOURS}`;

/** Scrolls a box, and nothing around it, so that something in it is seen. */
function reveal(box, inside) {
  const outer = box.getBoundingClientRect(), inner = inside.getBoundingClientRect();
  if (inner.top < outer.top + MARGIN) box.scrollTop -= outer.top + MARGIN - inner.top;
  else if (inner.bottom > outer.bottom - MARGIN) box.scrollTop += inner.bottom - outer.bottom + MARGIN;
}
function partOf({ text, mailbox, printed }) {
  if (mailbox !== undefined) return element('em', { class: colourOf(mailbox) }, text);
  return printed ? element('u', {}, text) : text;
}
const boxLine = ({ number, name, of, pending }) => element('li', {}, element('em', { class: colourOf(number) }, name), ` : ${of}`,
  element('span', {}, pending.length ? ` holds ${pending.join(', ')}` : ' is empty'));
const threadLine = ({ name, stands }) => element('li', {}, element('b', {}, name), ` ${stands}`);

/** `ask` gives answers, `editor` lights places up. A run has `taken` of its `count` rows behind it; some of them are in view. */
export class RunPanel {
  constructor(box, { ask, editor }) {
    Object.assign(this, { box, ask, editor, run: null, text: '', taken: 0, turn: 0, shown: null });
    box.addEventListener('keydown', event => this.key(event));
  }
  empty(text) {
    this.run = null;
    this.editor.darken();
    this.box.replaceChildren(note(text, 'empty'));
  }
  show(text, run) {
    Object.assign(this, { run, text, taken: run.count, turn: this.turn + 1 });
    this.now = element('p', { class: 'now', 'aria-live': 'polite' });
    this.output = element('pre', { class: 'out' });
    this.ending = element('div', {}, ...this.outcome());
    this.standing = element('div', { class: 'standing' });
    this.trace = element('div', { class: 'trace chart', role: 'listbox', tabindex: '0', 'aria-label': LIST });
    this.drawing = element('div', { class: 'drawing', onclick: event => this.goToRowAt(event.clientY) });
    const left = [element('h3', {}, 'Output'), this.output, this.ending, element('h3', {}, 'After this step'), this.standing,
      element('h3', {}, 'What was done'), this.trace];
    this.box.replaceChildren(this.controls(), this.now, element('div', { class: 'sides' },
      element('div', { class: 'side' }, ...left), element('div', { class: 'side' }, element('h3', {}, 'Chart'), this.drawing)));
    this.place(run);
    this.tell();
  }
  controls() {
    const { count } = this.run;
    const button = (title, mark, to) =>
      element('button', { type: 'button', title, 'aria-label': title, onclick: () => this.go(to()) }, mark);
    this.slider = element('input', {
      type: 'range', min: '0', max: String(count), value: String(count), 'aria-label': 'Step of the run',
      oninput: () => this.go(Number(this.slider.value)),
    });
    return element('div', { class: 'steps' },
      button('To the start', '«', () => 0), button('A step back', '‹', () => this.taken - 1), this.slider,
      button('A step on', '›', () => this.taken + 1), button('To the end', '»', () => count));
  }
  /** How the run ended: where it isn't done, with an explanation. */
  outcome() {
    const [, steps] = (this.run.outcome ?? '').split(' '), { explanation, entries } = this.run;
    if (!explanation) return [note(sayDone(steps, entries), 'outcome')];
    return [element('div', { class: 'stays' }, ...explanationOf(explanation, mark => this.editor.leads(mark)))];
  }
  /** Puts some rows and their chart in place. */
  place({ from, rows, chart }) {
    this.shown = { from, rows };
    const others = (count, where) => count > 0 ? [note(`${count} ${where} these`, 'doc')] : [];
    const lines = rows.map((row, index) => this.line(row, from + index));
    this.trace.replaceChildren(...others(from, 'before'), ...lines, ...others(this.run.count - from - rows.length, 'after'));
    this.drawing.innerHTML = chart;
    this.fit();
  }
  line(row, index) {
    const title = row.line ? `line ${row.line}` : null;
    return element('div', { role: 'option', id: `row-${index}`, title, onclick: () => this.go(index + 1) },
      element('i', {}, String(row.entry)), element('b', {}, row.label), element('span', {}, ...row.parts.map(partOf)));
  }
  fit() {
    const drawn = this.drawing.firstElementChild, natural = Number(drawn.getAttribute('width'));
    const room = this.drawing.clientWidth || natural;
    drawn.style.width = `${Math.min(natural, Math.max(room, natural * SMALLEST))}px`;
    drawn.style.height = 'auto';
  }

  // ------------------------------------------------------------------------------------------------------------ stepping
  /** The chart's row of an entry. */
  band(entry) { return this.drawing.querySelector(`.row[data-entry="${entry}"]`); }
  goToRowAt(height) {
    const found = this.shown.rows.findIndex(({ entry }) => {
      const place = this.band(entry)?.getBoundingClientRect();
      return place && height >= place.top && height < place.bottom;
    });
    if (found >= 0) this.go(this.shown.from + found + 1);
  }
  key(event) {
    if (!this.run || event.target !== this.trace) return;
    const to = { ArrowUp: this.taken - 1, ArrowDown: this.taken + 1, Home: 0, End: this.run.count }[event.key];
    if (to === undefined) return;
    event.preventDefault();
    this.go(to);
  }
  /** Goes to where so many rows are taken; rows that aren't in view are asked for. */
  async go(taken) {
    const to = Math.max(0, Math.min(this.run.count, taken)), mine = this.turn + 1;
    Object.assign(this, { taken: to, turn: mine });
    this.slider.value = String(to);
    const { from, rows } = this.shown, first = Math.max(0, to - 1 - (to - 1) % this.run.window);
    if (to > from + rows.length || (to > 0 && to <= from)) {
      const answer = await this.ask('window', { text: this.text, history: this.run.history, from: first });
      if (mine !== this.turn || !answer.rows) return;
      this.place(answer);
    }
    this.light();
    await this.tell();
  }
  get row() { return this.taken ? this.shown.rows[this.taken - 1 - this.shown.from] : null; }
  light() {
    const { row } = this;
    this.editor.darken();
    for (const one of this.box.querySelectorAll('.is-lit')) { one.classList.remove('is-lit'); one.removeAttribute('aria-selected'); }
    this.trace.removeAttribute('aria-activedescendant');
    this.fade(row);
    if (!row) return;
    if (row.from !== undefined) this.editor.light(row, true);
    const line = byId(`row-${this.taken - 1}`), band = this.band(row.entry);
    line.classList.add('is-lit');
    line.setAttribute('aria-selected', 'true');
    this.trace.setAttribute('aria-activedescendant', line.id);
    reveal(this.trace, line);
    band?.classList.add('is-lit');
    if (band) reveal(this.drawing, band);
  }
  /** Makes pale what comes after the row. */
  fade(row) {
    const drawn = this.drawing.firstElementChild, number = (one, name) => Number(one?.getAttribute(name) ?? 0);
    drawn.querySelector('.later')?.remove();
    if (this.taken === this.run.count) return;
    const band = row ? this.band(row.entry) : null, { width, height } = drawn.viewBox.baseVal;
    const y = band ? number(band, 'y') + number(band, 'height') : number(drawn.querySelector('.row'), 'y');
    const veil = document.createElementNS(SVG, 'rect');
    const given = { class: 'later', x: 0, y, width, height: Math.max(0, height - y) };
    for (const [name, value] of Object.entries(given)) veil.setAttribute(name, value);
    drawn.append(veil);
  }
  /** Tells what the row did, what was printed until then, and how all stands. */
  async tell() {
    const { row, run, taken } = this, mine = this.turn, isEnd = taken === run.count;
    const said = row ? `${row.label}: ${row.parts.map(part => part.text).join('')}` : taken ? '' : 'Nothing was done yet.';
    this.now.replaceChildren(element('b', {}, `${taken} of ${run.count}`), ` ${isEnd ? 'The end of the run. ' : ''}${said}`);
    const answer = await this.ask('standing', { text: this.text, history: run.history, taken });
    if (mine !== this.turn || !answer.threads) return;
    const printed = run.output.slice(0, Math.min(answer.printed, MOST_LINES));
    this.output.textContent = printed.length ? printed.join('\n') : isEnd ? 'It prints nothing.' : 'Nothing is printed yet.';
    this.output.classList.toggle('is-empty', !printed.length);
    this.ending.hidden = !isEnd;
    const lines = [...answer.threads.map(threadLine), ...answer.boxes.map(boxLine)];
    const nobody = note('No thread and no mailbox is left.', 'empty');
    this.standing.replaceChildren(lines.length ? element('ul', { class: 'chart' }, ...lines) : nobody);
  }
}
