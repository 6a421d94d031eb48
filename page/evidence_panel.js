// A text that stands behind the program, to be edited, with the verdict of its judge.

import { element, note } from './dom.js';
import { explanationOf } from './explanation.js';

const QUIET_MS = 250, MOST_LINES = 2000;

export class EvidencePanel {
  /** `judge(evidence)` gives the answer to a text; `actions` are [label, hint, what is done with the text]. */
  constructor(box, { label, about, editor, judge, actions = [] }) {
    Object.assign(this, { box, judge, editor, turn: 0, timer: null, original: '' });
    this.area = element('textarea', { 'aria-label': label, spellcheck: 'false', wrap: 'off', oninput: () => this.later() });
    this.verdict = element('div', { class: 'judged', role: 'status' });
    this.reset = element('button', { type: 'button', onclick: () => this.put(this.original) }, 'Reset');
    const button = ([name, title, act]) => element('button', { type: 'button', title, onclick: () => act(this.area.value) }, name);
    this.actions = element('div', { class: 'actions' }, this.reset, ...actions.map(button));
    this.filled = [note(about, 'doc'), this.actions, this.verdict, this.area];
  }
  empty(text) { this.turn++; this.box.replaceChildren(note(text, 'empty')); }
  show(text) {
    this.original = text;
    this.box.replaceChildren(...this.filled);
    return this.put(text);
  }
  put(text) {
    this.area.value = text;
    return this.look();
  }
  later() {
    this.verdict.classList.add('stale');
    clearTimeout(this.timer);
    this.timer = setTimeout(() => this.look(), QUIET_MS);
  }
  async look() {
    const mine = ++this.turn, answer = await this.judge(this.area.value);
    if (mine !== this.turn) return;
    this.reset.disabled = this.area.value === this.original;
    this.sayVerdict(answer);
  }
  sayVerdict(answer) {
    this.verdict.classList.remove('stale');
    if (!answer.lines) { this.verdict.replaceChildren(note(answer.failed ?? 'Stopped.', 'line bad')); return; }
    const kind = answer.accepted ? 'line good' : 'line bad';
    const leads = mark => mark.isEvidence ? this.leads(mark) : this.editor.leads(mark);
    const lines = answer.lines.slice(0, MOST_LINES).map(text => element('p', { class: kind }, element('b', {}, text)));
    this.verdict.replaceChildren(...lines, ...(answer.explanation ? explanationOf(answer.explanation, leads) : []));
  }
  leads({ from, to }) {
    return { onclick: () => { this.area.focus(); this.area.setSelectionRange(from, to); } };
  }
}
