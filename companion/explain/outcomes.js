// How a run stands that isn't done: `waiting`, `full`, `budget`, and the `open` of a replay; and one that is, with mailboxes left.

import { parsePattern } from '../parse.js';
import { waitingCircle } from '../step.js';
import { smallWords } from '../words.js';
import { and, chapter, mark, plural, LANGUAGE } from './say.js';

const RUNNING = 'docs/RUNNING.md';

/** The outcome of a run as an explanation; `run` is from step.js. Null for one that is done and leaves no mailbox. */
export function explainOutcome(run) {
  const [kind, steps] = (run.outcome ?? '').split(' '), make = kind === 'done' && !run.boxes.length ? null : OUTCOMES[kind];
  return make ? { kind, rule: null, verdict: run.outcome, marks: [], notes: [], hints: [], ...make(Number(steps), run) } : null;
}

const HINT_OF_FREE = 'a guard with `free` goes on when nobody else knows the mailbox: let those who only wait not keep a right to it';
const OUTCOMES = {
  done: (steps, { boxes }) => ({
    headline: `after ${plural(steps, 'step')} all threads ended, and ${plural(boxes.length, 'mailbox', 'mailboxes')} `
      + `${boxes.length === 1 ? 'is' : 'are'} left`,
    notes: [`no thread is there any more that could receive: ${andOthers(boxes.map(holds), 'mailbox')}`,
      'types don\'t rule this out where a message brings the right to receive, I?m: it may lie in a mailbox that nobody has'],
    hints: ['spawn a thread with the mailbox instead of sending the right to receive from it'],
    doc: chapter(LANGUAGE, 'What types don\'t say'),
  }),
  waiting: (steps, run) => ({
    headline: run.threads.length === 1 ? `after ${plural(steps, 'step')} the thread that is left waits for ever`
      : `after ${plural(steps, 'step')} the ${run.threads.length} threads that are left wait, and nobody can go on`,
    marks: standingMarks(run.threads),
    notes: [...whoForWhom(run), 'types don\'t say that threads never wait for one another'],
    hints: [...run.threads.some(mayBeEmpty) ? [HINT_OF_FREE] : [],
      'look for a circle: who waits for whom; the usual way out is one order for all, or one who decides'],
    doc: chapter(LANGUAGE, 'What types don\'t say'),
  }),
  full: (steps, run) => ({
    headline: `after ${plural(steps, 'step')} as many messages are pending as may be`,
    marks: standingMarks(run.threads),
    notes: ['all that can still happen are sends'],
    hints: ['--messages N allows more; or send less before the receiver gets its turn, as a bounded buffer does'],
    doc: chapter(RUNNING, 'The limit on messages'),
  }),
  budget: steps => ({
    headline: `the ${plural(steps, 'step')} that were given are spent`,
    notes: ['the program may go on for ever, or only for longer'],
    hints: ['--steps N gives more, up to 1,000,000'],
    doc: chapter(RUNNING, 'Outcomes'),
  }),
  open: (steps, run) => ({
    headline: `after ${plural(steps, 'step')} the history ends, and a thread could go on`,
    marks: standingMarks(run.threads),
    notes: ['it is a history of the program, as far as it goes'],
    doc: chapter(RUNNING, 'Replays'),
  }),
};

const MOST_TOLD = 3;                      // threads at one place, and threads of a circle

/** A mark for each place where threads stand. */
function standingMarks(threads) {
  const places = new Map();
  for (const one of threads.filter(each => each.place)) {
    const key = `${one.place.a} ${one.place.z}`;
    places.set(key, [...places.get(key) ?? [], one]);
  }
  return [...places.values()].map((here, index) => mark(here[0].place, andOthers(here.map(standsAt), 'thread'), index === 0));
}
function andOthers(told, one) {
  const more = told.length - MOST_TOLD;
  return more > 1 ? `${told.slice(0, MOST_TOLD).join('; ')}; and ${plural(more, `other ${one}`)}` : told.join('; ');
}
/** Whether a thread waits where nothing need come. */
const mayBeEmpty = one => one.pattern !== undefined && smallWords(parsePattern(one.pattern), 0).length > 0;
const holds = ({ name, pending }) => pending.length ? `${name} holds ${and(pending)}` : `${name} is empty`;
const inIt = ({ pending }) => pending.length ? `in it: ${pending.join(', ')}` : 'nothing is in it';
const called = one => `thread ${one.thread}, ${one.name},`;
const standsAt = one => one.mailbox ? `${called(one)} waits at ${one.mailbox} : ${one.pattern}; ${inIt(one)}`
  : `${called(one)} comes here next`;

/** Why threads that wait can't go on: a circle of them, or mailboxes that nobody is left to send to. */
function whoForWhom({ threads }) {
  const circle = waitingCircle(threads), numbered = one => `thread ${one.thread}`;
  if (circle.length) {
    const next = index => numbered(circle[(index + 1) % circle.length]);
    const links = circle.map((one, index) => `${numbered(one)} waits at ${one.mailbox}, to which ${next(index)} may still send`);
    return [`a circle: ${andOthers(links, 'link')}`];
  }
  return threads.filter(one => one.box && !one.holders.length).slice(0, MOST_TOLD).map(one => one.brought.length
    ? `${one.mailbox} is known in ${and(one.brought.map(({ said, mailbox }) => `${said} at ${mailbox}`))} alone`
    : `no thread that is left knows ${one.mailbox}, where ${numbered(one)} waits`);
}
