// Replays a history for readers: for each entry, who did what with which mailbox; and how each thread stands at the end.
// The steps are machine.js's. `pat replay` judges a history; this tells it, and says in words why an entry can't be taken.

import { spellPattern } from './parse.js';
import { Configuration, Refusal, sayValue } from './machine.js';

const LOCAL_STEPS = 100000;                 // a thread that has more of them on end is told as it is then

/** What `pat run` wrote, taken apart: {history: lines, output: lines, outcome}, or null where it is a refusal. */
export function readRun(text) {
  const lines = text.split('\n'), start = lines.indexOf('%%history');
  if (start < 0) return null;
  const end = lines.indexOf('%%output', start), history = lines.slice(start + 1, end < 0 ? undefined : end).filter(Boolean);
  const rest = end < 0 ? [] : lines.slice(end + 1).filter(Boolean);
  return {
    history, output: rest.filter(line => line.startsWith('out ')).map(line => line.slice(4)),
    outcome: rest.find(line => !line.startsWith('out ')) ?? null,
  };
}

/**
 * {events, threads, mailboxes, names, labels, boxes, output, outcome, problem, reason, cut}.
 * `events` have {entry, worker, thread, name, own, state, locals, act, place} and what the act needs: `mailbox`, `message` {number, tag,
 * args, by, sent}, `said` (the message in words), `child`, `childName`, `text`, `pattern`.
 * `threads` are those that are left, as `standing` gives them. `boxes` are the live mailboxes {mailbox, name, interface, pending}.
 * `names` calls mailboxes, `labels` threads by their numbers. `problem` is {entry, reason} where an entry can't be taken. `most` bounds the
 * entries that are taken; `named` is a longer run of the same history, after which mailboxes and threads are called then.
 */
export function replay(program, history, { outcome = null, most = Infinity, named = null } = {}) {
  const teller = new Teller(program), events = [];
  let problem = null;
  for (let entry = 0; entry < history.length && entry < most; entry++) {
    try { events.push(teller.take(entry, history[entry])); } catch (refusal) {
      if (!(refusal instanceof Refusal)) throw refusal;
      problem = { entry, reason: refusal.message }; break;
    }
  }
  const { configuration, mailboxes } = teller;
  for (const mailbox of mailboxes) mailbox.freed = !configuration.live.has(mailbox);
  const names = named ? namesFrom(named, mailboxes) : nameMailboxes(mailboxes), say = message => sayMessage(message, names);
  const labels = named ? named.labels : labelThreads(events, names);
  for (const event of events) if (event.message) event.said = say(event.message);
  return {
    events, mailboxes, names, labels, outcome, problem, reason: problem?.reason, cut: history.length > most, output: configuration.lines,
    threads: standings(configuration, names).map(one => ({ ...one, label: labels.get(one.thread) })),
    boxes: boxesOf(configuration, names),
  };
}

/** A mailbox is called as the `let` that made it, with an index where there are several. */
export function nameMailboxes(mailboxes) {
  const byName = new Map(), names = new Map();
  for (const mailbox of mailboxes) {
    const name = mailbox.name ?? mailbox.interface.toLowerCase();
    byName.set(name, [...(byName.get(name) ?? []), mailbox]);
  }
  for (const [name, all] of byName) {
    all.forEach((mailbox, index) => names.set(mailbox, all.length === 1 ? name : name + subscript(index + 1)));
  }
  return names;
}
const namesFrom = (named, mailboxes) => new Map(mailboxes.map(mailbox => [mailbox, named.names.get(named.mailboxes[mailbox.number])]));
/** A thread is called as the function that it was spawned with and its mailbox; threads of one name are told apart by their numbers. */
function labelThreads(events, names) {
  const labels = new Map([[0, 'main']]), alike = new Map([['main', 1]]);
  for (const { act, child, childName, childOwn } of events) if (act === 'spawn') {
    const label = childName + (childOwn ? ` ${names.get(childOwn)}` : '');
    labels.set(child, label); alike.set(label, (alike.get(label) ?? 0) + 1);
  }
  return new Map([...labels].map(([number, label]) => [number, alike.get(label) > 1 ? `${number} ${label}` : label]));
}
const subscript = number => [...String(number)].map(digit => String.fromCharCode(0x2080 + Number(digit))).join('');
export function sayMessage({ tag, args }, names) {
  return tag + (args.length ? `(${args.map(value => sayValue(value, mailbox => names.get(mailbox))).join(', ')})` : '');
}
function boxesOf(configuration, names) {
  return [...configuration.live].map(mailbox => ({ mailbox, name: names.get(mailbox), interface: mailbox.interface,
    pending: configuration.pendingIn(mailbox).map(message => sayMessage(message, names)) }));
}

// --------------------------------------------------------------------------------------------------------- entry by entry

const ENTRY = /^(\d+) (\d+) (\d+) (?:(new|send|spawn|print|free|end|-)|receive (\d+))$/;

class Teller {
  constructor(program) { this.configuration = new Configuration(program); this.program = program; this.mailboxes = []; }

  take(entry, line) {
    const { configuration } = this, { worker, number, locals, act, taken } = readEntry(line);
    const before = configuration.threads.get(number) ?? refuse(`there is no thread ${number} at this point`), thread = before.copy();
    const count = thread.settle(this.program, locals);
    const there = count === 1 ? 'one local step' : `${count} local steps`;
    if (count < locals) refuse(`thread ${number} has ${there} here, and not ${locals}`);
    configuration.threads.set(number, thread);
    const event = { entry, worker, thread: number, name: thread.name, own: thread.own, state: thread.state, locals, act };
    try { this.share(event, thread, taken); } catch (refusal) { configuration.threads.set(number, before); throw refusal; }
    return event;
  }
  share(event, thread, taken) {
    const { control } = thread, { configuration } = this;
    if (event.act === '-') { if (!event.locals) refuse('an entry has at least one step'); return; }
    const message = taken === null ? null
      : configuration.messages.get(taken) ?? refuse(`no message ${taken} is pending at this point`);
    if (control) event.place = { a: control.a, z: control.z };
    const { child, ...done } = configuration.take(thread, event.act, message);
    Object.assign(event, done);
    if (event.act === 'receive' || event.act === 'free') event.pattern = patternOf(control);
    if (event.act === 'new') this.mailboxes.push(event.mailbox);
    if (event.act === 'send') event.message.sent = event.entry;
    if (child) Object.assign(event, { child: child.number, childName: child.name, childOwn: child.own });
  }
}
function refuse(reason) { throw new Refusal(reason); }
function readEntry(line) {
  const [, worker, number, locals, act, taken] = ENTRY.exec(line) ?? refuse('this is no line of a history');
  return { worker: Number(worker), number: Number(number), locals: Number(locals), act: act ?? 'receive',
    taken: taken === undefined ? null : Number(taken) };
}
const patternOf = control => control.k === 'free' ? '1' : spellPattern(control.pattern);

// -------------------------------------------------------------------------------------------------- how threads are left

/**
 * How each thread stands, once its local steps are taken: {thread, name, state, act, locals, place}, and at a guard {box, mailbox (its
 * name), pattern, takes (the tags), pending (in words), waits, holders, brought}. `waits` says that it can't go on. `holders` are the
 * numbers of the other threads that know the mailbox; `brought` are the messages that bring it to somebody: {said, box, mailbox}.
 */
export function standings(configuration, names) {
  const settled = settledCopy(configuration);
  return [...settled.configuration.threads.values()].map(thread => {
    const { control, state } = thread, own = thread.own ? ` ${names.get(thread.own)}` : '';
    const name = thread.name + own + (state && state !== thread.name ? ` (in ${state})` : '');
    const act = { guard: 'receive' }[thread.next] ?? thread.next, place = control && { a: control.a, z: control.z };
    const standing = { thread: thread.number, name, state, act, locals: settled.locals.get(thread.number), place };
    return ['guard', 'free'].includes(thread.next) ? { ...standing, ...atGuard(settled.configuration, thread, names) } : standing;
  });
}
function settledCopy(configuration) {
  const locals = new Map(), threads = new Map();
  for (const [number, thread] of configuration.threads) {
    const copy = thread.copy();
    locals.set(number, copy.settle(configuration.program, LOCAL_STEPS));
    threads.set(number, copy);
  }
  return { configuration: Object.assign(Object.create(Configuration.prototype), configuration, { threads }), locals };
}
function atGuard(configuration, thread, names) {
  const { control } = thread, box = thread.target, free = control.k === 'free', pending = configuration.pendingIn(box);
  const bringing = [...configuration.messages.values()].filter(message => message.args.includes(box));
  const takes = free ? [] : control.clauses.filter(clause => clause.k === 'receive').map(clause => clause.tag.text);
  return {
    box, mailbox: names.get(box), pattern: patternOf(control), takes,
    place: { a: control.a, z: free ? control.z : control.pattern.z },
    pending: pending.map(message => sayMessage(message, names)),
    waits: configuration.whyNotFree(thread) !== null && !pending.some(message => takes.includes(message.tag)),
    holders: [...configuration.threads.values()].filter(other => other !== thread && other.held.has(box)).map(other => other.number),
    brought: bringing.map(message => ({ said: sayMessage(message, names), box: message.mailbox, mailbox: names.get(message.mailbox) })),
  };
}

/**
 * A shortest circle among threads that wait, as `standings` gives them: each knows the mailbox that the one before it waits at, or is
 * to receive a message that brings it. Whoever waits for an answer to a message that lies in a mailbox isn't the one from whom its
 * receiver waits for another message, if a circle can be found without. Empty where there is none.
 */
export function waitingCircle(threads) {
  const waiting = threads.filter(one => one.waits);
  const asks = (one, other) => one.brought.some(message => message.box === other.box);
  const knows = (one, other) => one.holders.includes(other.thread);
  return shortestCircle(waiting, (one, other) => asks(one, other) || knows(one, other) && !asks(other, one))
    ?? shortestCircle(waiting, (one, other) => asks(one, other) || knows(one, other)) ?? [];
}
function shortestCircle(waiting, waitsFor) {
  const ways = waiting.map(first => shortestWayBack(first, one => waiting.filter(other => waitsFor(one, other)))).filter(Boolean);
  return ways.length ? ways.reduce((best, one) => one.length < best.length ? one : best) : null;
}
function shortestWayBack(first, nextOf) {
  const from = new Map([[first, null]]), open = [first];
  for (const one of open) for (const other of nextOf(one)) {
    if (other === first) return wayTo(one, from);
    if (!from.has(other)) { from.set(other, one); open.push(other); }
  }
  return null;
}
function wayTo(last, from) {
  const way = [];
  for (let one = last; one; one = from.get(one)) way.unshift(one);
  return way;
}

/** An outcome for people. */
export function sayOutcome(outcome) {
  const [word, steps, , left] = (outcome ?? '').split(' ');
  const kept = left ? `; ${left === '1' ? 'one mailbox is' : `${left} mailboxes are`} left` : '';
  return {
    done: `all threads ended after ${steps} steps${kept}`, waiting: `threads wait for ever, after ${steps} steps`,
    budget: `the ${steps} steps are spent`, full: `as many messages are pending as may be, after ${steps} steps`,
  }[word] ?? '';
}
