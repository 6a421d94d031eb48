// Histories are told as `pat replay` judges them: by four workers, cut short, and changed at random.
import { test } from 'node:test';
import assert from 'node:assert/strict';
import { explore } from '../explore.js';
import { readRun, replay, sayOutcome, waitingCircle } from '../step.js';
import { sayStanding, tell, trace } from '../trace.js';
import { accepted, pat } from './programs.js';
import { masterAndWorkers, philosophers, programOf, randomFrom, runOf } from './made.js';

const HISTORIES = 100, WORKERS = ['--workers', '4', '--steps', '3000'];
/** What `pat replay` says: {outputs, end} or {refused}. */
function judged(bytes, history) {
  const text = Buffer.concat([Buffer.from(bytes), Buffer.from(`\n%%history\n${history.map(line => line + '\n').join('')}`)]);
  const lines = pat(['replay'], text).text.trimEnd().split('\n'), refused = /^refused at entry (\d+)$/.exec(lines.at(-1));
  return refused ? { refused: Number(refused[1]) }
    : { outputs: lines.filter(line => line.startsWith('out ')).map(line => line.slice(4)), end: lines.at(-1) };
}
function assertAgree(bytes, history, name) {
  const said = judged(bytes, history), told = replay(programOf(bytes), history);
  if (said.refused !== undefined) {
    assert.equal(told.problem?.entry, said.refused, `${name}: ${history[said.refused]}`);
    assert.ok(told.reason.length > 5);
    return said;
  }
  assert.equal(told.problem, null, name);
  assert.deepEqual(told.output, said.outputs, name);
  const [word, , ...rest] = said.end.split(' '), left = told.threads.map(one => String(one.thread)), live = told.mailboxes.filter(one => !one.freed);
  if (word === 'done') assert.deepEqual([left.length, live.length], [0, Number(rest[1] ?? 0)], name);
  if (word === 'waiting') assert.deepEqual(left.sort(), rest.sort(), name);
  assert.equal(word === 'waiting', told.threads.length > 0 && told.threads.every(one => one.waits && one.locals === 0), name);
  return said;
}

test('100 histories by four workers are told as replay judges them', () => {
  let stepped = 0, several = 0;
  for (let round = 0; stepped < HISTORIES; round++) for (const { name, bytes } of [...accepted, { name: 'workers', bytes: Buffer.from(masterAndWorkers(3, 3)) }]) {
    if (stepped === HISTORIES) break;
    const run = readRun(pat(['run', ...WORKERS], bytes).text);
    assertAgree(bytes, run.history, `${name}, round ${round}`);
    stepped++;
    if (new Set(run.history.map(line => line.split(' ')[0])).size > 1) several++;
  }
  assert.equal(stepped, HISTORIES);
  if (!several) console.log('in none of these runs did a second worker take part');
});

test('so are histories that are cut, and those of which one line was changed', () => {
  const random = randomFrom(7), acts = ['new', 'send', 'spawn', 'print', 'free', 'end', '-', 'receive 0', 'receive 3'];
  let refused = 0;
  for (const { name, bytes } of accepted.filter(one => /^examples/.test(one.name))) {
    const { history } = runOf(bytes, WORKERS);
    assertAgree(bytes, history.slice(0, random(history.length)), name);
    for (let count = 0; count < 3; count++) {
      const changed = [...history], at = random(history.length), words = changed[at].split(' '), pick = random(4);
      if (pick === 0) changed.splice(at, 1);
      else if (pick === 1) [changed[at], changed[(at + 1) % changed.length]] = [changed[(at + 1) % changed.length], changed[at]];
      else if (pick === 2) changed[at] = [...words.slice(0, 2), random(4), ...words.slice(3)].join(' ');
      else changed[at] = [...words.slice(0, 3), acts[random(acts.length)]].join(' ');
      if (assertAgree(bytes, changed, `${name}, line ${at} is ${changed[at]}`).refused !== undefined) refused++;
    }
  }
  assert.ok(refused > 10, `${refused} were refused`);
});

test('whoever waits is said with the guard, what is in the mailbox, who knows it, and in which circle', () => {
  const text = philosophers(2), history = ['0 0 1 new', '0 0 2 spawn', '0 0 2 new', '0 0 2 spawn', '0 0 2 spawn', '0 0 1 spawn', '0 0 0 end',
    '0 3 3 new', '0 3 2 send', '0 4 3 new', '0 4 2 send'];
  const run = replay(programOf(text), history);
  const [fork] = run.threads;
  assert.equal(run.problem, null, run.reason);
  assert.deepEqual([fork.name, fork.label, fork.mailbox, fork.pattern, fork.takes, fork.pending, fork.waits],
    ['lying a', 'lying a', 'a', '*(Take.Release)', ['Take'], ['Take(me₁)'], false]);
  assert.deepEqual(run.threads[2].brought.map(one => [one.said, one.mailbox]), [['Take(me₁)', 'a']]);
  assert.deepEqual(fork.holders, [3, 4]);
  assert.deepEqual(waitingCircle(run.threads), []);
  assert.equal(sayStanding(fork), 'waits at guard a : *(Take.Release);  in it: Take(me₁)');
  assert.deepEqual(run.boxes.map(one => [one.name, one.pending.length]), [['a', 1], ['b', 1], ['me₁', 0], ['me₂', 0]]);
  const whole = runOf(text), then = replay(programOf(text), whole.history, { most: 12, named: whole });
  const [waiting] = explore(programOf(text), { outputs: false }).ends.filter(end => end.kind === 'waiting');
  const circle = waitingCircle(replay(programOf(text), waiting.history).threads).map(one => one.name);
  assert.deepEqual(circle, ['lying a (in taken)', 'philosopher', 'lying b (in taken)', 'philosopher']);
  assert.ok(then.mailboxes.every(mailbox => then.names.get(mailbox) === whole.names.get(whole.mailboxes[mailbox.number])));
});

test('a trace has a row for each entry that others see', () => {
  const run = runOf(masterAndWorkers(2, 2)), rows = tell(run);
  assert.deepEqual(rows.map(row => row.entry), run.events.filter(event => event.act !== '-').map(event => event.entry));
  assert.equal(trace(run).split('\n').length - 2, rows.length);
  assert.ok(rows.every(row => row.label === run.labels.get(row.thread)));
  assert.match(trace(run), new RegExp(`${sayOutcome(run.outcome)}\n$`));
  assert.doesNotMatch(trace(run), /undefined|NaN|\[object/);
});
