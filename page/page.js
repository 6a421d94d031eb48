// The page: an editor, and beside it what `pat` says of the text as it is typed.

import { STYLE } from '../companion/chart.js';
import { answerer } from './answers.js';
import { Asker } from './asker.js';
import { clearAddress, listenToTabs, listExamples, nameChosen, programOfAddress, share, showTab, turnTheme } from './controls.js';
import { byId, element, note, say } from './dom.js';
import { Editor } from './editor.js';
import { EvidencePanel } from './evidence_panel.js';
import { explanationOf, numbered, onceEach } from './explanation.js';
import { hasMemory64 } from './host.js';
import { unzip } from './link.js';
import { RunPanel } from './run_panel.js';

// How long after the last key the text is looked at, and after how long a look at an older text is given up for a newer one.
const QUIET_MS = 180, PATIENCE_MS = 2000;
const FIRST_EXAMPLE = 'Accepted/future';
const UNABLE = 'It needs WebAssembly with 64-bit memories, which Chromium has from version 133 on and Firefox from 134 on.'
  + ' The editor and Format work all the same.';
const ALONE = ' · This browser gives the page no worker: typing waits for the answers, and nothing can be stopped.';
const SAFE = 'In no order of events does a message come that nobody expects, or is a mailbox forgotten with messages in it,'
  + ' but for mailboxes that were given away in messages to one another.';
const WAITING = 'This run ends with threads that wait for ever. Types don\'t speak of that: see below who waits where.';
const NO_MEMORY = 'The page gives pat 1 GiB, and this text needs more. The native program has as much as the machine.';
const TYPES = 'In colour are the patterns that were found, in few words. A signature may be written so.';
const DERIVATION = 'Why this program can be typed: what `pat derive` writes. Change something, and see what `pat verify` says.';
const HISTORY = 'What the run did, as `pat run` writes it, a line for each entry: worker, thread, local steps, and what was done.'
  + ' Change something, and see what `pat replay` says.';

class Page {
  constructor({ data, program, bytes }) {
    Object.assign(this, { data, turn: 0, timer: null, text: '', check: null, run: null, tab: 'run', filled: new Set(), words: [] });
    this.isAble = hasMemory64();
    this.editor = new Editor(window.CodeMirror, byId('text'));
    this.asker = this.isAble ? new Asker({ program, bytes, changed: isBusy => { byId('busy').hidden = !isBusy; } }) : null;
    const unable = answerer(null);
    this.ask = (what, given) => this.asker ? this.asker.ask(what, given) : unable({ id: 0, what, ...given });
  }
  async begin() {
    this.controls();
    const text = await programOfAddress();
    if (text === null) this.choose(FIRST_EXAMPLE); else this.editor.text = text;
    if (this.isAble) ({ words: this.words = [] } = await this.ask('words'));
    else byId('verdict').replaceChildren(element('h2', {}, 'This browser can\'t run pat.'), note(UNABLE));
    this.panels();
    this.editor.onChange(origin => this.changed(origin));
    await this.look();
  }
  controls() {
    listExamples(this.data.examples, value => { this.choose(value); clearAddress(); });
    listenToTabs(name => this.open(name));
    const clicks = {
      format: () => this.format(), share: () => share(this.editor.text), theme: turnTheme, help: () => byId('about').showModal(),
      stop: () => this.asker?.stop(),
    };
    for (const [name, act] of Object.entries(clicks)) byId(name).addEventListener('click', act);
    byId('steps').addEventListener('change', () => this.look());
    byId('stop').hidden = this.asker?.isAlone ?? true;
    if (this.asker?.isAlone) byId('made').append(ALONE);
    addEventListener('hashchange', async () => {
      const text = await programOfAddress();
      if (text !== null) { nameChosen(''); this.editor.text = text; }
    });
  }
  choose(value) {
    const [group, name] = value.split('/');
    nameChosen(value);
    this.editor.text = this.data.examples[group][name];
  }
  async format() {
    const { text } = this.editor, answer = await this.ask('format', { text });
    if (answer.failed) say('It can\'t be laid out before it can be read.');
    else if (answer.text !== text && text === this.editor.text) this.editor.replace(answer.text);
  }

  // ------------------------------------------------------------------------------------------------------------- a look
  changed(origin) {
    if (origin !== 'setValue') nameChosen('');
    clearTimeout(this.timer);
    this.timer = setTimeout(() => this.look(), QUIET_MS);
  }
  /** Looks at the text as it stands. An answer that comes after a newer look has begun is thrown away. */
  async look() {
    if (!this.isAble) return;
    if (this.asker.busyFor > PATIENCE_MS) this.asker.stop();
    const mine = ++this.turn, { text } = this.editor, isStale = () => mine !== this.turn;
    delete document.documentElement.dataset.ready;
    byId('verdict').classList.add('stale');
    const check = await this.ask('check', { text });
    if (isStale()) return;
    Object.assign(this, { text, check, run: null });
    this.filled.clear();
    this.sayVerdict();
    if (check.accepted) await this.runIt(isStale); else await this.explainIt(isStale);
    if (isStale()) return;
    await this.fill();
    document.documentElement.dataset.ready = String(mine);
  }
  sayVerdict() {
    const { check } = this, box = byId('verdict');
    box.classList.remove('stale');
    this.editor.unmark();
    this.editor.darken();
    if (check.stopped) box.replaceChildren(note('Stopped. It goes on with the next change of the text.', 'line bad'));
    else if (check.failed) box.replaceChildren(note(`There is no verdict: ${check.failed}.`, 'line bad'));
    else box.replaceChildren(this.verdictLine(check), ...this.meaning(check));
  }
  verdictLine({ accepted, line, took }) {
    const [word, ...rest] = line.split(/(?= at |: )/);
    return element('p', { class: accepted ? 'line good' : 'line bad' }, element('b', {}, word), rest.join(''),
      element('span', { class: 'soft' }, accepted ? `  ·  ${took.toFixed(0)} ms` : ''));
  }
  meaning({ accepted, line }) {
    if (accepted) return [element('h2', {}, 'This program never goes wrong with its mailboxes.'), note(SAFE)];
    return line === 'out of memory' ? [note(NO_MEMORY)] : [];
  }
  async explainIt(isStale) {
    this.empty();
    if (!this.check.line) return;
    const { explanation } = await this.ask('explain', { text: this.text });
    if (isStale() || !explanation) return;
    byId('verdict').append(...explanationOf(explanation, mark => this.editor.leads(mark)));
    this.editor.show(onceEach(numbered(explanation.marks)));
  }
  async runIt(isStale) {
    const run = await this.ask('run', { text: this.text, steps: Number(byId('steps').value) });
    if (isStale()) return;
    this.run = run;
    if (run.outcome?.startsWith('waiting')) byId('verdict').append(note(WAITING, 'hint'));
  }

  // -------------------------------------------------------------------------------------------------------------- panels
  panels() {
    const { editor } = this, judge = what => evidence => this.ask(what, { text: this.text, evidence });
    const actions = [['Show as run', 'Show this history in the tab Run', evidence => this.showHistory(evidence)]];
    const order = ['Order', 'Write it in one order of all that happened independently', evidence => this.orderHistory(evidence)];
    if (this.words.includes('order')) actions.push(order);
    this.runPanel = new RunPanel(byId('run'), { ask: this.ask, editor });
    const derivation = { label: 'Derivation', about: DERIVATION, editor, judge: judge('verify') };
    this.derivation = new EvidencePanel(byId('derivation'), derivation);
    this.history = new EvidencePanel(byId('history'), { label: 'History', about: HISTORY, editor, judge: judge('replay'), actions });
  }
  empty() {
    this.runPanel.empty('Only a program that is accepted is run.');
    byId('types').replaceChildren(note('Only a program that is accepted has types.', 'empty'));
    this.derivation.empty('Only a program that is accepted has a derivation.');
    this.history.empty('Only a program that is accepted has a history.');
  }
  open(name) {
    this.tab = name;
    showTab(name);
    return this.fill();
  }
  /** Fills the tab that is shown, once for each text. */
  async fill() {
    if (!this.check?.accepted || this.filled.has(this.tab)) return;
    this.filled.add(this.tab);
    if (this.tab === 'run') this.fillRun();
    if (this.tab === 'types') await this.fillTypes();
    if (this.tab === 'derivation') await this.fillDerivation();
    if (this.tab === 'history') await (this.run?.history ? this.history.show(this.run.history) : this.history.empty(this.whyNoRun()));
  }
  whyNoRun() { return this.run?.refused ?? this.run?.failed ?? 'Stopped.'; }
  fillRun() { if (this.run?.history) this.runPanel.show(this.text, this.run); else this.runPanel.empty(this.whyNoRun()); }
  async fillDerivation() {
    const { text, failed } = await this.ask('derivation', { text: this.text });
    if (text === undefined) this.derivation.empty(failed ?? 'Stopped.'); else await this.derivation.show(text);
  }
  async fillTypes() {
    const { signatures, failed } = await this.ask('types', { text: this.text });
    if (!signatures) { byId('types').replaceChildren(note(failed ?? 'Stopped.', 'empty')); return; }
    const line = parts => element('div', {}, ...parts.map(({ text, found }) => found ? element('b', {}, text) : text));
    byId('types').replaceChildren(note(TYPES, 'doc'), element('div', { class: 'signatures' }, ...signatures.map(line)));
  }
  /** Shows a history that replays as a run. */
  async showHistory(evidence) {
    const given = { text: this.text, evidence }, judged = await this.ask('replay', given);
    if (!judged.accepted) { this.history.sayVerdict(judged); return; }
    const run = await this.ask('show', given);
    if (!run.rows) { say(run.failed ?? 'Stopped.'); return; }
    this.runPanel.show(this.text, run);
    this.filled.add('run');
    this.open('run');
  }
  async orderHistory(evidence) {
    const answer = await this.ask('order', { text: this.text, evidence });
    if (answer.accepted) this.history.put(answer.text); else this.history.sayVerdict(answer);
  }
}

export async function start(data, program) {
  document.head.append(element('style', {}, STYLE));
  const bytes = await unzip(data.module, Infinity), page = new Page({ data, program, bytes });
  window.pat = page;
  await page.begin();
}
