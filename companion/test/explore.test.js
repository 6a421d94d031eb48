// The search over all orders: its ends are those of a plain search that leaves nothing out, and `pat replay` accepts their histories.
import { test } from 'node:test';
import assert from 'node:assert/strict';
import { explore, runText } from '../explore.js';
import { endsOf, sayEnds, endsAsData } from '../ends.js';
import { Source } from '../parse.js';
import { Keys } from '../canonical.js';
import { Configuration } from '../machine.js';
import { slice } from '../slice.js';
import { pat, programs } from './programs.js';
import { clients, philosophers, programOf, randomFrom } from './made.js';

const UNHURRIED = { seconds: 3600 };        // beside a load, time says nothing
const SMALL = { states: 2500, ...UNHURRIED };
const examples = programs.filter(({ name, verdict }) => name.startsWith('examples') && verdict === 'accepted');
const isAccepted = text => pat(['check'], Buffer.from(text)).text === 'accepted\n';
const say = ({ ends }) => ends.map(end => ({ key: end.key, shared: end.shared, outputs: [...end.outputs].sort() }))
  .sort((one, other) => one.key < other.key ? -1 : 1);
const isWhole = ({ complete, ends }) => complete && ends.every(end => end.outputsComplete);
function lastLine(text, history) {
  return pat(['replay'], Buffer.from(`${text}\n%%history\n${history.join('\n')}\n`)).text.trimEnd().split('\n').at(-1);
}

const TINY = [
  // one of two is received, and the other one stays
  'interface M { A(), B() }\ndef main(): Unit { let m = new[M] in spawn { m ! A() }; spawn { m ! B() }; '
    + 'guard m : A.B { receive A() from m -> guard m : B { receive B() from m -> free(m) } receive B() from m -> guard m : A { receive A() from m -> print(1); free(m) } } }',
  // prints in any order
  'def say(n: Int): Unit { print(n); print(n + 1) }\ndef main(): Unit { spawn { say(1) }; spawn { say(5) }; print(0) }',
  // the last number that comes decides
  'interface C { Put(Int) }\ndef cell(self: C?, last: Int): Unit { guard self : *Put { free -> if last < 2 { print("small") } else { print("large") } '
    + 'receive Put(x) from self -> cell(self, x) } }\ndef main(): Unit { let c = new[C] in spawn { cell(c, 0) }; spawn { c ! Put(1) }; spawn { c ! Put(2) }; c ! Put(3) }',
  // two that each wait for the other
  'interface I { m() }\ndef wait(a: I?, b: I!m): Unit { guard a : m { receive m() from c -> free(c); b ! m() } }\n'
    + 'def main(): Unit { let a = new[I] in let b = new[I] in spawn { wait(a, b) }; spawn { wait(b, a) } }',
  // a mailbox that a message brings
  'interface A { Take(B!Go) }\ninterface B { Go() }\ndef main(): Unit { let a = new[A] in let b = new[B] in spawn { a ! Take(b) }; '
    + 'spawn { guard a : Take { receive Take(b) from a -> free(a); b ! Go() } }; guard b : Go { receive Go() from b -> print(1); free(b) } }',
  // two threads that wait for one another
  'interface A { Go() }\ninterface B { Back() }\n'
    + 'def one(a: A?, b: B!): Unit { guard a : Go { receive Go() from a -> free(a); b ! Back() } }\ndef main(): Unit { let a = new[A] in '
    + 'let b = new[B] in spawn { one(a, b) }; guard b : Back { receive Back() from b -> free(b); a ! Go() } }',
];

test('the ends, outputs and shortest lengths of small programs are those of a search that leaves nothing out', () => {
  const random = [...Array(12).keys()].map(seed => clients(randomFrom(seed + 1))).filter(isAccepted);
  let compared = 0, waiting = 0;
  for (const text of [...TINY, philosophers(2), ...random]) {
    assert.ok(isAccepted(text), text);
    const program = programOf(text), all = explore(program, { ...SMALL, plain: true });
    if (!isWhole(all)) continue;
    const found = explore(program, SMALL);
    assert.ok(isWhole(found), text);
    assert.deepEqual(say(found), say(all), text);
    assert.ok(found.states <= all.states);
    compared++; waiting += all.ends.some(end => end.kind === 'waiting');
  }
  assert.ok(compared >= 8 && waiting >= 2, `${compared} compared, ${waiting} with threads that wait`);
});

test('each end\'s history is one that replay accepts, and comes to this end', () => {
  for (const text of [...TINY, philosophers(2), philosophers(3, 2), ...examples.map(one => one.bytes.toString())]) {
    for (const end of explore(programOf(text), { states: 300, outputs: false }).ends) {
      assert.equal(lastLine(text, end.history), runText(end, []).trimEnd().split('\n').at(-1), text);
    }
  }
});

test('the philosophers\' deadlock is found, in less than a second of the processor', () => {
  const text = philosophers(3, 2), program = programOf(text);
  explore(programOf(philosophers(2)), SMALL);
  const before = process.cpuUsage(), found = explore(program, { ...UNHURRIED, outputs: false }), spent = process.cpuUsage(before);
  assert.ok(found.complete);
  assert.deepEqual(found.ends.map(end => end.kind), ['done', 'waiting']);
  assert.ok(spent.user + spent.system < 1e6, `${(spent.user + spent.system) / 1e6} s`);
  assert.ok(found.ends[1].shared < found.ends[0].shared);
});

test('what a search couldn\'t look at is said', () => {
  const endless = 'def f(): Unit { f() }\ndef main(): Unit { spawn { f() }; print(1) }\n';
  assert.equal(explore(programOf(endless)).cut, 'local');
  const pump = 'def f(n: Int): Unit { print(n); f(n + 1) }\ndef main(): Unit { f(0) }\n';
  assert.equal(explore(programOf(pump), { states: 5, plain: true, outputs: false }).cut, 'states');
  const philosophers3 = programOf(philosophers(3, 2));
  assert.deepEqual(explore(philosophers3, { ...UNHURRIED, states: 10 }).cut, 'states');
  assert.deepEqual(explore(philosophers3, { seconds: 0 }).cut, 'seconds');
});

test('an endless program without an end in a finite number of configurations is searched whole', () => {
  const text = 'interface T { Token() }\ndef a(self: T?, n: Int): Unit { guard self : *Token { free -> () receive Token() from self -> self ! Token(); a(self, n + 1) } }\n'
    + 'def main(): Unit { let t = new[T] in t ! Token(); a(t, 0) }\n';
  assert.ok(isAccepted(text));
  const found = explore(programOf(text), UNHURRIED);
  assert.ok(found.complete);
  assert.equal(found.ends.length, 0);
});

test('numbers that decide nothing are constants in a slice, and those that do stay', () => {
  const text = 'interface M { A(Int, Int) }\ndef f(m: M?, kept: Int, gone: Int): Unit { guard m : A { receive A(x, y) from m -> free(m); '
    + 'if x + kept < 3 { print(y) } else { print(gone) } } }\ndef main(): Unit { let n = 7 in let m = new[M] in m ! A(n, n + 1); f(m, 1, 2) }\n';
  const literals = options => JSON.stringify(slice(programOf(text), options).functions.get('main').body, (key, value) =>
    ['binder', 'target', 'def', 'up', 'parameter', 'kind'].includes(key) ? undefined : typeof value === 'bigint' ? `#${value}` : value).match(/#\d+/g);
  assert.deepEqual(literals({}), ['#7', '#0', '#1', '#0']);
  assert.deepEqual(literals({ prints: true }), ['#7', '#1', '#1', '#2']);
});

test('configurations that differ by numbers alone have one key, and others don\'t', () => {
  const twice = order => programOf(`interface M { A(Int) }\ndef main(): Unit { let a = new[M] in let b = new[M] in ${order}; `
    + 'guard a : A { receive A(x) from a -> free(a); guard b : A { receive A(y) from b -> free(b) } } }');
  const end = (text, keys) => {
    const program = twice(text), configuration = new Configuration(program);
    for (const thread = configuration.threads.get(0); thread.settle(program, 100), thread.next !== 'guard';) configuration.take(thread, thread.next);
    return (keys ?? new Keys(program)).keyOf(configuration);
  };
  assert.equal(end('a ! A(1); b ! A(2)').split('|')[1], '2');
  assert.equal(end('a ! A(1); b ! A(1)'), end('b ! A(1); a ! A(1)'));
  const keys = new Keys(twice('a ! A(1); b ! A(2)'));
  assert.notEqual(end('a ! A(1); b ! A(2)', keys), end('a ! A(2); b ! A(1)', keys));
});

test('ends are said in words and as data', () => {
  const text = philosophers(2), found = endsOf(programOf(text), new Source(text, 'table.pat'), pat, UNHURRIED);
  const said = sayEnds(found, new Source(text, 'table.pat')), data = endsAsData(found);
  assert.match(said, /^table\.pat: 2 ends; all orders were looked at/);
  assert.match(said, /2\. 4 threads wait for ever\./);
  assert.match(said, /thread 1 lying a \(in taken\) {2}waits at guard a : Release\.\*\(Take\.Release\); {2}in it: Take\(me₂\) {2}\(line 6\)/);
  assert.match(said, /in a circle: thread \d/);
  assert.doesNotMatch(said, /undefined|NaN|\[object|fault/);
  assert.deepEqual(data.ends.map(end => end.answer?.split(' ')[0]), ['done', 'waiting']);
  assert.equal(data.ends[0].outputs.length, 2);
});
