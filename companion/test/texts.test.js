import { test } from 'node:test';
import assert from 'node:assert/strict';
import { parse, Source } from '../parse.js';
import { explain } from '../explain/explain.js';

// What people write who come from other languages, and what the hint has to have in it.
const HABITS = [
  ['interface I { m(Int) }\ndef f(s: I?): Unit { guard s : *m { free => () receive m(x) from s -> f(s) } }', 'stands ->'],
  ['interface I { m(Int) }\ninterface J { n() }\ndef f(s: I?): Unit { guard s : m | m { free -> () } }', 'is "or"'],
  ['# hello', 'begins with //'],
  ['interface I { m(Int) }\ndef f(s: I!): Unit { s.m(1) }', 'x ! m'],
  ['def main(): Unit { if (1 < 2) print(1) else print(2) }', 'braces'],
  ['def main(): Unit { let x = 5 print(x) }', 'has `in`'],
  ['def main(): Unit { let x = 5; print(x) }', 'has `in`'],
  ['interface I { m(Int) }\ndef main(): Unit { let a = new I in free(a) }', 'new[I]'],
  ['interface I { m(Int) }\ndef f(s: I?): Unit { guard s : *m { free -> () receive m(x) -> f(s) } }', 'the rest'],
  ['interface I { m(Int) }\ndef f(s: I): Unit { () }', 'I! to send'],
  ['interface I { m, n }', 'm()'],
  ['interface I { m(Int) }\ndef f(s: I?): Unit { guard s { free -> () receive m(x) from s -> f(s) } }', 'guard x : *m'],
  ['def f(x: Int) { () }', 'gives back'],
  ['def main(): Unit { }', '()'],
  ['interface A { a(B!) }\ninterface B { b() }', 'I!*m'],
  ['def main(): Unit { print "a" }', 'print'],
  ['def f(): Int { return 5 }', 'no return'],
  ['def main(): Unit { if 1 < 2 { print(1) } else { print(2) } print(3) }', '`;` is missing'],
  ['interface I { m(Int) }\ndef f(s: I!): Unit { s ! m(1) + 2 }', 'bind its result'],
  ['def main(): Unit { print(\'a\') }', 'stands in "'],
  ['interface I { m(Int) }\ndef f(s: I?): Unit { free(s) }\ndef main(): Unit { let a = new[I] in spawn f(a) }', 'spawn'],
  ['def main(): Unit { print(1); }', 'none'],
  ['def f(x): Unit { () }', 'x: Int'],
  ['def main(): Unit { let x = ask(a) + 1 in print(x) }', 'a call is no expression: bind its result by a `let` of its own first'],
  ['def main(): Unit { let x = ask(a) - 1 in print(x) }', 'by a `let` of its own'],
  ['def main(): Unit { let x = 1 + ask(a) in print(x) }', 'let r = ask(..) in'],
  ['def main(): Unit { if ask(a) { print(1) } else { () } }', 'let r = ask(..) in'],
  ['def main(): Unit { f(1) - 2 }', 'a step of its own'],
  ['def main(): Unit { if a <= b { x } else { y } }', 'write if b < a { y } else { x }'],
  ['def main(): Unit { if a >= b { x } else { y } }', 'write if a < b { y } else { x }'],
  ['def main(): Unit { if a != b { x } else { y } }', 'no !='],
  ['def main(): Unit { if !a { x } else { y } }', 'no "not"'],
  ['def main(): Unit { if not a { x } else { y } }', 'no "not"'],
  ['def main(): Unit { if a and b { x } else { y } }', 'if a { b } else { false }'],
  ['def main(): Unit { if a < b < c { x } else { y } }', 'compares once'],
  ['def main(): Unit { print(1.5) }', 'whole number'],
  ['def main(): Unit { print(1, 2) }', 'no pairs'],
  ['def main(): Unit { f(new[I]) }', 'no expression'],
  ['def main(): Unit { print(a ! m(1)) }', 'a step of its own'],
  ['def main(): Unit { let x = new[I](1) in () }', 'new[I] alone'],
  ['def main(): Unit { let x: Int = 5 in () }', 'no type'],
  ['def main(): Unit { let mut x = 5 in () }', 'one name'],
  ['def main(): Unit { x = 5; print(x) }', 'never changes'],
  ['def main(): Unit { x += 5 }', 'never changes'],
  ['def main(): Unit { while true { () } }', 'no loop'],
  ['def main(): Unit { match x { 1 -> () } }', 'no other choice'],
  ['def main(): Unit { if 1 < 2 { print(1) } }', 'has an `else`'],
  ['def main(): Unit { guard a : *m { free -> (), receive m(x) from a -> f(a) } }', 'no comma'],
  ['def main(): Unit { guard a : *m { free -> (); receive m(x) from a -> f(a) } }', 'nothing stands'],
  ['def main(): Unit { guard a : *m { receive m(x) from a -> f(a); free -> () } }', 'nothing stands'],
  ['def main(): Unit { guard a : *m { m(x) -> f(a) } }', 'begins with `receive`'],
  ['def main(): Unit { receive m(x) from a -> f(a) }', 'stands in a guard'],
  ['def main(): Unit { guard a : m* { free -> () } }', '*m'],
  ['def main(): Unit { guard a : m, n { free -> () } }', '"and"'],
  ['def main(): Unit { print("a) }', 'ends on its own line'],
  ['def f(x: Int) -> Int { 1 }', 'behind `:`'],
  ['def f(x: int): Unit { () }', 'Unit, Bool, Int and String'],
  ['def f(x: List[Int]): Unit { () }', 'no lists'],
  ['def f(): Unit = 5', 'in braces'],
  ['fn main() { }', 'interfaces and functions'],
  ['interface I { m(Int), }', 'no comma'],
  ['interface I { m(Int); n() }', 'a comma'],
  ['interface I { m(x: Int) }', 'no name'],
  ['interface I { }', 'at least one'],
  ['-- hello', 'begins with //'],
  ['interface I { m() };\ndef main(): Unit { () }', 'nothing stands'],
  ['interface I { m(List<Int>) }', 'no lists'],
  ['interface I { m([Int]) }', 'no lists'],
  ['interface I { m(?J) }', 'the mark stands behind'],
  ['interface I { m(Int x) }', 'no name'],
  ['interface I { m() : Int }', 'a mailbox that it brings'],
  ['interface I { def m(): Unit }', 'lists its messages'],
  ['interface A { a(B!b +) }', '"or"'],
  ['def f(Int x): Unit { () }', 'its name first'],
  ['def f(x: Int,): Unit { () }', 'no comma'],
  ['def f(x: Int = 5): Unit { () }', 'no value of its own'],
  ['def f(x: Int; y: Int): Unit { () }', 'a comma'],
  ['def f(g: Int -> Int): Unit { () }', 'no value'],
  ['def f(): (Int, Int) { () }', 'no pairs'],
  ['def f(s: I?m(Int)): Unit { () }', 'names of messages alone'],
  ['def f(s: I?2): Unit { () }', 'a count is a product'],
  ['def main(): Unit { guard a : m^2 { free -> () } }', 'a count is a product'],
  ['def main(): Unit { guard a : m & n { free -> () } }', '"and"'],
  ['def main(): Unit { guard a, b : *m { free -> () } }', 'at one mailbox'],
  ['def main(): Unit { guard(a) : *m { free -> () } }', 'without brackets'],
  ['def main(): Unit { guard a : *m -> free(a) }', 'a clause for each message'],
  ['def main(): Unit { guard a : *m { free(a) -> () } }', 'free -> ..'],
  ['def main(): Unit { guard a : *m { free: () } }', 'stands ->'],
  ['def main(): Unit { guard a : m { receive m() from a { free(a) } } }', 'stands ->'],
  ['def main(): Unit { guard a : m { fail("never") } }', 'stands alone'],
  ['def main(): Unit { guard a : m { fail -> () } }', 'stands alone'],
  ['def main(): Unit { guard a : m { receive m(x: Int) from a -> () } }', 'without its type'],
  ['def main(): Unit { guard a : m { receive m(1) from a -> () } }', 'looks at it'],
  ['def main(): Unit { guard a : m { receive m(x) when x < 5 from a -> () } }', 'behind -> by an `if`'],
  ['def main(): Unit { guard a : m { receive m(x) from a if x < 5 -> () } }', 'behind -> by an `if`'],
  ['def main(): Unit { guard a : m + n { receive m() or n() from a -> () } }', 'one message'],
  ['def main(): Unit { guard a : *m { receive m() from a -> () else -> () } }', 'no clause for a time'],
  ['def main(): Unit { guard a : *m { receive m() from a -> () after 5 -> () } }', 'no clause for a time'],
  ['def main(): Unit { guard a : *m { free -> ; receive m() from a -> () } }', 'write ()'],
  ['def main(): Unit { guard a : *m { receive m() from a -> print(1) print(2) } }', 'before another step'],
  ['def main(): Unit { print(1 <> 2) }', 'no <>'],
  ['def main(): Unit { print(1 =< 2) }', 'no =<'],
  ['def main(): Unit { f() and g() }', 'choose by an `if`'],
  ['def main(): Unit { if n = 0 { () } else { () } }', 'by =='],
  ['def main(): Unit { let x = 1 in }', 'behind `in`'],
  ['def main(): Unit { print(1);; print(2) }', 'behind the last one'],
  ['def main(): Unit { { print(1) } { print(2) } }', 'stands `;`'],
  ['def main(): Unit { a ! m(), a ! m() }', 'stands `;`'],
  ['def main(): Unit { print(1)) }', 'closes nothing'],
  ['def main(): Unit { print(1) } }', 'closes nothing'],
  ['def f(): Unit { print(1)\ndef main(): Unit { f() }', '`}` is missing'],
  ['def main(): Unit { var x = 1; print(x) }', 'by `let`'],
  ['def main(): Unit { let a, b = 1 in () }', 'one name'],
  ['def main(): Unit { x++ }', 'no ++'],
  ['def main(): Unit { print("a" ++ "b") }', 'no ++'],
  ['def main(): Unit { print(1_000) }', 'digits alone'],
  ['def main(): Unit { print(“a”) }', 'stands in "'],
  ['def main(): Unit { print(x == 1 ? 2 : 3) }', 'if a'],
  ['def main(): Unit { let x = [1, 2] in () }', 'no lists'],
  ['def main(): Unit { let f = fun x -> x in () }', 'no value'],
  ['def main(): Unit { a <- m() }', 'x ! m'],
  ['def main(): Unit { send a m() }', 'x ! m'],
  ['def main(): Unit { let x = a.get() in () }', 'sent along'],
  ['def main(): Unit { let r = await f(x) in () }', 'f(..) alone'],
  ['def main(): Unit { let a = new[I!m] in () }', 'new[I]'],
  ['def main(): Unit { free a }', 'free(x)'],
  ['def f(print: Int): Unit { () }', 'a reserved word'],
];

function explained(text) {
  const source = new Source(text);
  try { parse(source); } catch ({ offset }) {
    return explain(source, { kind: 'syntax error', line: `syntax error at ${offset}`, place: { a: offset, z: offset } });
  }
  return assert.fail(`${text} is a program`);
}

test('habits from other languages have hints', () => {
  for (const [text, wanted] of HABITS) {
    const { hints } = explained(text);
    assert.ok(hints.length === 1 && hints[0].includes(wanted), `${text}: ${hints}`);
  }
});
test('bytes that are no text have a mark inside of it', () => {
  const source = new Source(new Uint8Array([0x64, 0x65, 0x66, 0x20, 0xff]));
  const { marks } = explain(source, { kind: 'syntax error', line: 'syntax error at 4', place: { a: 4, z: 4 } });
  assert.deepEqual(marks.map(one => one.place), [{ a: 4, z: 5 }]);
});
test('where the text ends, the bracket that is open is shown', () => {
  const { marks, headline } = explained('def main(): Unit { print((1)');
  assert.equal(headline, 'the text ends too early');
  assert.deepEqual(marks.map(one => one.place.a), [27, 24]);
});
test('a bracket that isn\'t closed is shown where something else closes or begins', () => {
  const opens = text => explained(text).marks.slice(1).map(one => one.place.a);
  assert.deepEqual(opens('def f(): Unit { print(1)\ndef main(): Unit { f() }'), [14]);
  assert.deepEqual(opens('def main(): Unit { print((1) }'), [24]);
  assert.deepEqual(opens('def main(): Unit { print(1; print(2) }'), [24]);
  assert.deepEqual(opens('def main(): Unit { print(1)) }'), []);
  assert.deepEqual(opens('interface I { def m(): Unit }'), []);
});

/** The explanation of a name, which is the last of these letters in the text, or its end. */
function ofName(kind, text, name) {
  const a = name ? text.lastIndexOf(name) : text.length, place = { a, z: a + name.length };
  return explain(new Source(text), { kind, line: `${kind} at ${place.a}-${place.z}`, place });
}
test('a name that is unknown has a hint where it may come from', () => {
  const hints = (text, name) => ofName('unknown name', text, name).hints.join();
  assert.match(hints('def main(): Unit { spawn { worker(1) } }', 'worker'), /def worker\(/);
  assert.match(hints('def main(): Unit { let a = new[Box] in free(a) }', 'Box'), /interface Box \{/);
  assert.match(hints('interface I { m(Box!n) }\ndef main(): Unit { () }', 'Box'), /interface Box \{/);
  assert.match(hints('def main(): Unit { print(count) }', 'count'), /by `let`/);
  assert.match(hints('def Main(): Unit { () }', ''), /give `Main` the name `main`/);
  assert.match(hints('def f(): Unit { () }', ''), /def main\(\)/);
});
test('a name for what isn\'t used is a name all the same', () => {
  const text = 'interface I { m(Int, Int) }\ndef f(s: I?m): Unit { guard s : m { receive m(_, _) from s -> free(s) } }';
  assert.match(ofName('twice', text, '_').hints.join(), /_a and _b/);
});
