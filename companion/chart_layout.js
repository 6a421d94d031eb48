// Where everything of a message sequence chart stands: rows, lifelines, arrows, marks and labels, as numbers. chart.js draws it.
// A row is an entry of the history. A window of rows is laid out; what comes from before it or goes on behind it is cut at its edges.

import { Room, beside } from './labels.js';

export const ROW = 27;
const LETTER = 6.65, TEXT = 12;             // the width of a letter at 11 px, the height of a label
const NAME = 18, NAME_PADDING = 12, LEVEL = NAME + 5; // the height of a thread's name, its box's padding, a level of names at the top
const NOTE = 17, NOTE_PADDING = 14;         // what is printed has a box, too
const WIDTHS = [[6, 120], [12, 112], [20, 88], [Infinity, 68]]; // up to so many columns each is so wide
const WIDEST = 190;                         // of few columns, where names of threads are long
const GAP = 12, STUB = 26;                  // least room at the edges; how far an arrow goes that leads nowhere
const BEND = 30, LANE = 7, ROUND = 8;       // how far an arrow goes out that bends back, how far apart two are, how round a corner is
const LIFT = 7.5;                           // how far above or below its row's middle a label may stand, so that it stays in the row
const LONGEST = 44;                         // letters of a label; longer ones are cut
const NUMBERS = 38, WORKER = 7;             // the room of the rows' numbers, and of a worker's column of dots
const REACH = 40;                           // how far from its thread a label may stand; else it stands on the right, with its name
const ROWS_TRIED = 12;                      // how far below its beginning the label of a wait may stand
const MOST_ON_THE_LEFT = 190;               // the most room that labels of the first column get on its left
const CUT = 12;                             // a message that was sent more rows before the window is drawn as a short arrow
const FAR = 9;                              // an arrow over more rows than this is labelled at its end too

const cut = (text, most = LONGEST) => [...text].length > most ? [...text].slice(0, most - 1).join('') + '…' : text;
const WIDE = /[\u1100-\u115f\u2e80-\ua4cf\uac00-\ud7a3\uf900-\ufaff\ufe30-\ufe6f\uff00-\uff60\uffe0-\uffe6]|\p{Extended_Pictographic}/gu;
const widthOf = text => ([...text].length + (text.match(WIDE)?.length ?? 0)) * LETTER;
const nameWidth = text => widthOf(text) + NAME_PADDING;
const boxAround = (x, y, width, height) => ({ left: x - width / 2, right: x + width / 2, top: y - height / 2, bottom: y + height / 2 });

/** How many rows a run has: its entries that are more than local steps. */
export const rowsOf = run => run.events.filter(event => event.act !== '-').length;

/**
 * {width, height, top, rows, lifelines, waits, arrows, spawns, marks, labels, names, stuck, workers}. `labels` have {kind, text, box,
 * mailbox}, `arrows` {segments, mailbox, sent, taken, curve}. `from` is the first row that is drawn, `most` bounds their number.
 */
export function layOut(run, { from = 0, most = Infinity, top = 0 } = {}) {
  return new ChartLayout(run, from, most, top).whole();
}

class ChartLayout {
  constructor(run, from, most, top) {
    Object.assign(this, { run, from });
    const rows = run.events.filter(event => event.act !== '-');
    this.count = Math.max(0, Math.min(rows.length - from, most)); this.last = from + this.count >= rows.length;
    this.rowOf = new Map(rows.map((event, index) => [event, index - from]));
    this.rows = rows.slice(from, from + this.count);
    this.threads = threadsOf(run, this.rowOf); this.messages = messagesOf(run.events);
    this.workers = [...new Set(run.events.map(event => event.worker))].sort((one, other) => one - other);
    this.left = NUMBERS + (this.workers.length > 1 ? 10 + WORKER * this.workers.length : 0);
    this.stuck = this.last && !(run.outcome ?? '').startsWith('done') ? run.threads : [];
    this.setColumns();
    this.top = top + this.headHeight;
    this.labels = []; this.marks = []; this.arrows = []; this.spawns = []; this.waits = []; this.lanes = new Map();
  }
  y(row) { return this.top + ROW * (row + 0.5); }
  x(thread) { return this.left + this.columnWidth * (thread.column + 0.5) + this.inset; }
  /** Where threads are left, there is a row more, in which they wait on. */
  get depth() { return this.count + (this.stuck.length ? 1 : 0); }
  get bottom() { return this.top + ROW * this.depth; }
  isHere(row) { return row >= 0 && row < this.count; }

  // ----------------------------------------------------------------------------------------------------------- columns

  /** Only the threads of this window have columns; a column is used again once its thread has ended. */
  setColumns() {
    const shown = [...this.threads.values()].filter(thread => thread.born < this.count && thread.dead >= 0), until = [];
    for (const thread of shown) {
      const free = until.findIndex(row => row < thread.born - 1);
      thread.column = free < 0 ? until.length : free;
      until[thread.column] = thread.dead;
    }
    this.shown = shown; this.columns = until.length;
    const longest = Math.max(0, ...shown.map(thread => nameWidth(thread.label)));
    const index = WIDTHS.findIndex(([most]) => until.length <= most), [, width] = WIDTHS[index];
    this.columnWidth = index ? width : Math.max(width, Math.min(WIDEST, longest + NAME_PADDING));
    this.inset = Math.max(GAP, this.roomOnTheLeft() - this.columnWidth / 2);
    this.placeHeads();
  }
  /** So much that the labels of the first column may stand on its left. */
  roomOnTheLeft() {
    const own = this.rows.filter(event => this.threads.get(event.thread).column === 0);
    const said = own.flatMap(event => [this.said(event) ?? '', event.act === 'receive' ? this.waiting(event) : '']);
    const longest = said.reduce((most, one) => Math.max(most, widthOf(one) + GAP), MOST_ON_THE_LEFT / 2);
    return Math.min(MOST_ON_THE_LEFT, longest);
  }
  /** Names of the threads that are there at the top: in one level where they fit, else in two, and cut so that lifelines pass. */
  placeHeads() {
    const heads = this.shown.filter(thread => thread.born < 0), room = this.columnWidth - GAP;
    const widest = Math.max(0, ...heads.map(thread => nameWidth(thread.label))), levels = widest > room ? 2 : 1;
    const letters = Math.floor((levels * this.columnWidth - NAME_PADDING - GAP) / LETTER);
    this.headHeight = GAP + levels * LEVEL;
    this.heads = heads.map(thread => ({ thread, text: cut(thread.label, letters), level: levels === 1 ? 0 : thread.column % 2 }));
  }

  // ------------------------------------------------------------------------------------------------------------- whole

  whole() {
    this.lifelines = this.shown.map(thread => ({ thread, x: this.x(thread), top: Math.max(this.top, this.y(thread.born)),
      bottom: thread.dead < this.count ? this.y(thread.dead) : this.bottom }));
    this.room = new Room({ left: this.left + 2, lifelines: this.lifelines });
    this.margin = this.left + this.columnWidth * this.columns + this.inset + GAP;
    this.drawArrows();
    this.rows.forEach((event, row) => this.mark(event, row));
    this.placeNames();
    this.rows.forEach((event, row) => this.labelEvent(event, row));
    for (const thread of this.shown) { this.labelWaits(thread); this.labelStates(thread); }
    const right = Math.max(this.margin, ...this.labels.map(label => label.box.right), ...this.marks.map(({ box }) => box.right));
    return { width: Math.ceil(right + GAP), height: this.bottom, top: this.top, left: this.left, lifelines: this.lifelines,
      rows: this.rows.map((event, row) => ({ entry: event.entry, worker: event.worker, y: this.y(row) })), heads: this.headBoxes(),
      waits: this.waits, arrows: this.arrows, spawns: this.spawns, marks: this.marks, labels: this.labels, stuck: this.stuck,
      workers: this.workers, first: this.from, last: this.last };
  }
  headBoxes() {
    return this.heads.map(({ thread, text, level }) => {
      const y = this.top - GAP / 2 - NAME / 2 - level * LEVEL;
      return { kind: 'name', text, box: boxAround(this.x(thread), y, nameWidth(text), NAME) };
    });
  }
  mark(event, row) {
    const x = this.x(this.threads.get(event.thread)), y = this.y(row), { mailbox } = event, kind = event.act;
    if (!MARKS[kind]) return;
    const box = boxAround(x, y, ...MARKS[kind]);
    this.marks.push({ kind, x, y, box, mailbox }); this.room.addBox(box);
  }

  // ------------------------------------------------------------------------------------------------------------ arrows

  drawArrows() {
    for (const { sent, taken } of this.messages.values()) {
      const start = this.rowOf.get(sent), end = taken ? this.rowOf.get(taken) : Infinity;
      if (!this.isHere(start) && !this.isHere(end)) continue;
      const arrow = taken ? this.arrowTo(sent, taken, start, end) : this.stub(sent, start);
      this.arrows.push(arrow);
      arrow.segments.forEach(segment => this.room.addSegment(segment));
    }
  }
  arrowTo(sent, taken, start, end) {
    const sender = this.threads.get(sent.thread), receiver = this.threads.get(taken.thread);
    const both = { mailbox: sent.mailbox, sent, taken };
    const shownAt = thread => this.shown.includes(thread) ? this.x(thread) : null;
    const x1 = shownAt(sender) ?? shownAt(receiver) - STUB, x2 = shownAt(receiver) ?? shownAt(sender) + STUB;
    const y1 = this.y(start), y2 = this.y(end);
    if (start < -CUT) return { ...both, segments: [{ x1: x2 - STUB, y1: y2 - ROW / 3, x2: x2 - 4, y2 }], tailless: true };
    if (end >= this.count + CUT) return { ...both, segments: [{ x1: x1 + 3, y1, x2: x1 + STUB, y2: y1 + ROW / 3 }], headless: true };
    if (Math.abs(x2 - x1) < 2) return { ...both, ...this.bow(x1, y1, y2, this.laneOf(sender.column, start, end)) };
    const way = Math.sign(x2 - x1), segment = clip({ x1: x1 + 3 * way, y1, x2: x2 - 4 * way, y2 }, this.top - 4, this.bottom);
    return { ...both, segments: [segment], headless: end >= this.count, tailless: start < 0 };
  }
  /** Messages of a thread to itself that lie at the same time go round in lanes of their own, as far as there is room. */
  laneOf(column, start, end) {
    const until = this.lanes.get(column) ?? [], free = until.findIndex(row => row < start), lane = free >= 0 ? free : until.length;
    const most = Math.floor((this.columnWidth - BEND - GAP) / LANE);
    until[lane] = end;
    this.lanes.set(column, until);
    return lane % most;
  }
  /** Such a message goes round on the right. */
  bow(x, y1, y2, lane) {
    const out = x + BEND + LANE * lane, begins = y1 >= this.top, ends = y2 <= this.bottom;
    const first = begins ? [[x + 3, y1], [out - ROUND, y1], [out, y1 + ROUND]] : [[out, this.top - 4]];
    const last = ends ? [[out, y2 - ROUND], [out - ROUND, y2], [x + 5, y2]] : [[out, this.bottom]], points = [...first, ...last];
    const segments = points.slice(1).map(([x2, y2], index) => ({ x1: points[index][0], y1: points[index][1], x2, y2 }));
    return { segments, headless: !ends, tailless: !begins };
  }
  /** A message that nobody took: a short arrow with a cross at its end. */
  stub(sent, start) {
    const x = this.x(this.threads.get(sent.thread)), y = this.y(start), end = x + STUB;
    const box = boxAround(end, y, ...MARKS.left);
    this.marks.push({ kind: 'left', x: end, y, box, mailbox: sent.mailbox }); this.room.addBox(box);
    return { mailbox: sent.mailbox, sent, taken: null, segments: [{ x1: x + 3, y1: y, x2: end - 5, y2: y }], headless: true };
  }

  // ------------------------------------------------------------------------------------------------------------ labels

  label(kind, text, candidates, row, { mailbox = null, who = '', padding = 0, must = true } = {}) {
    const found = this.room.place(candidates);
    if (found) { this.labels.push({ kind, text, box: found.box, mailbox }); return found.box; }
    if (!must) return null;
    const said = who ? `${who}: ${text}` : text;
    const box = this.room.placeBehind(this.margin, this.y(row), widthOf(said) + padding, kind === 'name' ? NAME : TEXT);
    this.labels.push({ kind, text: said, box, mailbox, aside: true });
    return box;
  }
  /** New threads: the name stands on the lifeline where it can, and the arrow of the spawn leads to it. */
  placeNames() {
    const born = this.shown.filter(thread => this.isHere(thread.born));
    const spawn = thread => ({ y: this.y(thread.born), from: this.x(this.threads.get(thread.parent)), to: this.x(thread) });
    for (const thread of born) {
      const { y, from, to } = spawn(thread), text = cut(thread.label), width = nameWidth(text), middle = boxAround(to, y, width, NAME);
      const way = Math.sign(to - from) || 1, near = 8 < Math.abs(to - from) - width / 2 && this.room.isFree(middle);
      const segment = { x1: from + 4 * way, y1: y, x2: near ? to - way * (width / 2 + 2) : to - 3 * way, y2: y };
      this.spawns.push({ segments: [segment], thread });
      this.room.addSegment(segment);
      if (near) { this.room.addBox(middle); this.labels.push({ kind: 'name', text, box: middle, mailbox: null }); continue; }
      const prices = [['right', 0, 0], ['left', 0, 12]];
      this.label('name', text, beside(to, y, { width, height: NAME, gap: 6, reach: REACH, lift: 0, prices }), thread.born,
        { padding: NAME_PADDING });
    }
  }
  /** What stands beside an event; nothing beside a receive whose send is near. */
  said(event) {
    const name = this.run.names.get(event.mailbox);
    switch (event.act) {
      case 'new': return `${name} : ${event.mailbox.interface}`;
      case 'free': return `free ${name}`;
      case 'print': return event.text;
      case 'send': return `${name} ! ${event.said}` + (this.leaves(event) ? `, taken in ${this.messages.get(event.message).taken.entry}` : '');
      case 'receive': return this.saidOfReceive(event);
      default: return null;
    }
  }
  saidOfReceive(event) {
    if (this.arrives(event)) return `${event.said}, sent in ${event.message.sent}`;
    return this.isFar(event) ? event.said : null;
  }
  waiting({ mailbox, pattern }) { return `waits ${this.run.names.get(mailbox)} : ${pattern}`; }
  labelEvent(event, row) {
    const thread = this.threads.get(event.thread), x = this.x(thread), y = this.y(row), said = this.said(event);
    if (said === null) return;
    const note = event.act === 'print', text = cut(said), width = widthOf(text) + (note ? NOTE_PADDING : 0);
    const prices = event.act === 'send' ? this.pricesOfSend(event) : PRICES[event.act === 'receive' ? 'receive' : 'own'];
    const shape = { width, height: note ? NOTE : TEXT, gap: event.act === 'send' ? 7 : 11, reach: REACH, lift: LIFT, prices };
    const more = { mailbox: event.mailbox ?? null, who: thread.label, padding: note ? NOTE_PADDING : 0 };
    this.label(note ? 'note' : event.act, text, beside(x, y, shape), row, more);
  }
  isFar(event) {
    const sent = this.rowOf.get(this.messages.get(event.message).sent);
    return sent < 0 || this.rowOf.get(event) - sent > FAR;
  }
  /** A message that comes from far before the window, or is taken far behind it, has a short arrow, and says the other entry. */
  arrives(event) { return this.rowOf.get(this.messages.get(event.message).sent) < -CUT; }
  leaves(event) {
    const { taken } = this.messages.get(event.message);
    return taken !== null && this.rowOf.get(taken) >= this.count + CUT;
  }
  /** Above the arrow's beginning, or on the other side. */
  pricesOfSend(event) {
    const { taken } = this.messages.get(event.message);
    if (!taken || this.leaves(event)) return PRICES.stub;
    const to = this.threads.get(taken.thread), goesRight = !this.shown.includes(to) || this.x(to) >= this.x(this.threads.get(event.thread));
    const sides = goesRight ? { near: 'right', far: 'left' } : { near: 'left', far: 'right' };
    return PRICES.send.map(([side, ...rest]) => [sides[side], ...rest]);
  }
  /** A thread waits where its next step is a receive of what was sent later, or a freeing that others had to let go for. */
  labelWaits(thread) {
    let shown = null;
    for (const wait of waitsOf(thread, this.rowOf, this.messages, this.count, this.stuck)) {
      const top = Math.max(this.y(wait.from) + 9, this.top), bottom = Math.min(this.y(wait.until), this.bottom - (wait.ever ? 8 : 0));
      if (bottom <= top) continue;
      this.waits.push({ x: this.x(thread), top, bottom, ever: wait.ever });
      const text = cut(this.waiting(wait));
      const short = wait.until - wait.from < 2 && !wait.ever, behind = wait.from + 1 >= this.depth;
      if (wait.pattern === '1' || short || behind || shown === text) continue;
      shown = text;
      this.labelWait(thread, wait, text);
    }
  }
  labelWait(thread, wait, text) {
    const first = Math.max(0, wait.from + 1), last = Math.max(first, Math.min(wait.until, this.depth - 1)), candidates = [];
    for (let row = first; row <= Math.min(last, first + ROWS_TRIED); row++) {
      const shape = { width: widthOf(text), height: TEXT, gap: 6, reach: 16, lift: LIFT, prices: PRICES.wait };
      for (const one of beside(this.x(thread), this.y(row), shape)) candidates.push({ ...one, price: one.price + 5 * (row - first) });
    }
    this.label('wait', text, candidates, first, { mailbox: wait.mailbox, who: thread.label });
  }
  /** In small italics, where a thread has come to another function; left out where there is no room. */
  labelStates(thread) {
    let state = thread.function;
    for (const event of thread.own) {
      if (!event.state || event.state === state) continue;
      state = event.state;
      const row = this.rowOf.get(event);
      if (!this.isHere(row)) continue;
      const shape = { width: widthOf(state), height: TEXT, gap: 8, reach: 24, lift: LIFT, prices: PRICES.state };
      this.label('state', cut(state), beside(this.x(thread), this.y(row), shape), row, { must: false });
    }
  }
}

/** The widths and heights of marks. */
const MARKS = { new: [15, 15], free: [15, 15], end: [18, 4], send: [6, 6], receive: [8, 8], print: [7, 7], left: [10, 10] };
/** Where labels like to stand: side, level (-1 is above the row's middle), price. */
const PRICES = {
  own: [['right', 0, 0], ['left', 0, 6], ['right', -1, 9], ['right', 1, 9], ['left', -1, 12], ['left', 1, 12]],
  send: [['near', -1, 0], ['far', 0, 6], ['far', -1, 10], ['near', 1, 12], ['far', 1, 14], ['near', 0, 16]],
  stub: [['right', -1, 0], ['left', 0, 6], ['left', -1, 8], ['left', 1, 8], ['right', 0, 24]],
  receive: [['right', 1, 0], ['left', 1, 1], ['right', 0, 4], ['left', 0, 5], ['right', -1, 8], ['left', -1, 9]],
  wait: [['right', 0, 0], ['left', 0, 3], ['right', -1, 4], ['right', 1, 4], ['left', -1, 6], ['left', 1, 6]],
  state: [['left', 1, 0], ['left', -1, 2], ['left', 0, 3], ['right', 1, 5], ['right', -1, 6], ['right', 0, 7]],
};

// ------------------------------------------------------------------------------------------------------ what there is to draw

/** Threads by their numbers: {number, label, function, parent, born, dead, own}; `born` and `dead` are rows, `own` their events. */
function threadsOf(run, rowOf) {
  const make = (number, name, parent, born) =>
    ({ number, function: name, label: run.labels.get(number), parent, born, dead: Infinity, own: [] });
  const threads = new Map([[0, make(0, 'main', null, -Infinity)]]);
  for (const event of run.events) {
    if (event.act === '-') continue;
    const row = rowOf.get(event), thread = threads.get(event.thread);
    thread.own.push(event);
    if (event.act === 'spawn') threads.set(event.child, make(event.child, event.childName, event.thread, row));
    if (event.act === 'end') thread.dead = row;
  }
  return threads;
}
/** Messages with the events that sent and took them. */
function messagesOf(events) {
  const messages = new Map();
  for (const event of events) {
    if (event.act === 'send') messages.set(event.message, { sent: event, taken: null });
    if (event.act === 'receive') messages.get(event.message).taken = event;
  }
  return messages;
}
/** {from, until, mailbox, pattern, ever}: rows between which a thread waits. */
function waitsOf(thread, rowOf, messages, count, stuck) {
  const waits = [];
  let before = thread.born;
  for (const event of thread.own) {
    const row = rowOf.get(event), until = event.act === 'receive' ? rowOf.get(messages.get(event.message).sent)
      : event.act === 'free' && row > before + 1 ? row - 1 : -Infinity;
    const { mailbox, pattern } = event, isHere = before < count && row >= 0;
    if (until > before && isHere) waits.push({ from: before, until, mailbox, pattern, ever: false });
    before = row;
  }
  const left = stuck.find(one => one.thread === thread.number);
  if (left?.waits) waits.push({ from: Math.max(before, -1), until: count + 1, mailbox: left.box, pattern: left.pattern, ever: true });
  return waits;
}
/** The piece of a segment between two heights. */
function clip(segment, top, bottom) {
  const { x1, y1, x2, y2 } = segment, at = y => x1 + (x2 - x1) * (y - y1) / (y2 - y1);
  const first = y1 < top ? [at(top), top] : [x1, y1], last = y2 > bottom ? [at(bottom), bottom] : [x2, y2];
  return { x1: first[0], y1: first[1], x2: last[0], y2: last[1] };
}
