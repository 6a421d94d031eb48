// What people write who come from other languages, and what is written here instead.

import { code } from './say.js';

const COMMENT = 'a comment begins with //', SENT = 'a message is sent by x ! m(..)', ARROW = 'between a clause and what it does stands ->';
const CALL = 'a call is no expression: bind its result by a `let` of its own first, let r = f(..) in, and behind it let x = r + 1 in';
const STEPS = 'between the clauses of a guard nothing stands, and no `;`';
const COMMA = 'between the clauses of a guard, and between steps, no comma stands';
const CHOICE = 'a clause takes each message of its tag: choose behind -> by an `if`';
const PAIRS = 'there are no pairs: a `let` binds one name, and a function gives one value';
const LISTS = 'there are no lists, and no types with others in them: docs/IDIOMS.md has what to write instead';
const BINDS = 'a name is bound by `let`, let x = .. in, and never changes';
const WRITTEN = 'what a message brings has its pattern written: I!m for one m, I!*m for any number';
const OPERATOR = /^(\+|-(?!>)|\*|<|==)/, WORD = /^[\p{L}_]/u, BASE = /^(Int|Bool|String|Unit)$/;

/**
 * What stands there; and where it matters, what stands before it, and what is expected, each word of it; then the hint. The first that
 * fits is given.
 */
const HABITS = [
  // signs that the language hasn't
  [/^(--|\(\*)/, { wants: '`def`' }, COMMENT],
  [/^-/, { before: '<', wants: 'an expression' }, SENT],
  [/^\+/, { before: '+', wants: 'an expression' },
    'there is no ++: for a number write x + 1, and texts aren\'t joined: print each by itself'],
  [/^>=/, {}, 'there is no >=: for if a >= b { x } else { y } write if a < b { y } else { x }'],
  [/^>/, { before: '=' }, ARROW],
  [/^>/, { before: '<' }, 'there is no <>: exchange the branches of a == b'],
  [/^>/, { before: /^\p{Lu}/u }, LISTS],
  [/^>/, {}, 'there is no >: write b < a for a > b'],
  [/^=/, { wants: ['`{`', '`==`'], before: /^[^<!]/ }, 'two are compared by =='],
  [/^=/, { before: '<' }, 'there is no <=: for if a <= b { x } else { y } write if b < a { y } else { x }'],
  [/^=</, {}, 'there is no =<: for if a =< b { x } else { y } write if b < a { y } else { x }'],
  [/^=/, { before: '!' }, 'there is no !=: exchange the branches of a == b'],
  [/^!=/, {}, 'there is no !=: exchange the branches of a == b'],
  [/^!/, { wants: 'an expression' }, 'there is no "not": exchange the branches; or write if a { false } else { true }'],
  [/^&/, {}, 'there is no &: in a pattern `.` is "and", and for a && b write if a { b } else { false }'],
  [/^\|/, {}, 'there is no |: in a pattern `+` is "or", and for a || b write if a { true } else { b }'],
  [/^and\b/, { wants: '`-`' }, 'there is no "and": write if a { b } else { false }'],
  [/^(and|or)\b/, { wants: '`;`' }, 'a call is a step of its own: bind what it gives, let r = f(..) in, and choose by an `if`'],
  [/^or\b/, { wants: '`-`' }, 'there is no "or": write if a { true } else { b }'],
  [/^/, { before: 'not', wants: '`-`' }, 'there is no "not": exchange the branches; or write if a { false } else { true }'],
  [/^#/, {}, COMMENT],
  [/^\/\*/, {}, 'a comment begins with //, on each of its lines'],
  [/^\//, {}, 'there is no division, and a comment begins with //'],
  [/^%/, {}, 'there is no remainder: count by a parameter that begins again'],
  [/^['`‘’“”]/, {}, 'a string stands in "'],
  [/^\^/, {}, 'a count is a product: m.m.m is three of m'],
  [/^_/, { before: /^\d+$/ }, 'a number has digits alone'],
  [/^\?/, { wants: '`-`' }, 'what chooses is if a { x } else { y }'],
  [/^\./, { before: /^\d+$/ }, 'an Int is a whole number, and there are no others'],
  [/^\./, { wants: '`;`' }, SENT],
  [/^\./, { wants: '`in`' }, `${SENT}, and gives nothing back: the answer comes to a mailbox that is sent along`],

  // guards and clauses
  [/^(\(|->)/, { before: 'fail' }, '`fail` stands alone: it does nothing, and is for what can\'t come'],
  [/^\(/, { before: 'free', wants: '`->`' }, 'this clause names no mailbox: free -> ..'],
  [/^[:{]/, { wants: '`->`' }, ARROW],
  [/^(if|when)\b/, { wants: '`from`' }, CHOICE],
  [/^(if|when)\b/, { wants: '`->`' }, CHOICE],
  [/^(or|and)\b/, { wants: '`from`' }, 'a clause takes one message: write one for each'],
  [/^->/, { wants: '`from`' }, 'a clause names the mailbox with the rest: receive m(..) from x -> .., mostly by the name again'],
  [/^->/, { before: 'free' }, STEPS],
  [/^(receive|fail)/, { before: ';' }, STEPS],
  [/^receive/, { wants: 'an expression' }, 'a `receive` stands in a guard: guard x : *m { receive m(..) from x -> .. }'],
  [/^,/, { wants: 'a clause' }, COMMA],
  [/^,/, { before: '}' }, COMMA],
  [/^(after|else|otherw|default|timeout|_)/, { wants: 'a clause' },
    'there is no clause for a time or for all others: a guard\'s pattern says all that may come, and each message has its clause'],
  [WORD, { wants: ['a clause', '`;`'] }, 'before another step a `;` stands; and a clause begins with `receive`, `free` or `fail`'],
  [WORD, { wants: 'a clause' }, 'a clause begins with `receive`, `free` or `fail`: receive m(..) from x -> ..'],
  [/^\{/, { wants: ['`:`'], before: /^[^)]/ }, 'a guard says all that may come: guard x : *m { .. }'],
  [/^,/, { wants: '`:`', before: WORD },
    'a parameter has its type, x: Int; and a guard waits at one mailbox: let one interface have the messages of both'],
  [/^\(/, { wants: ['a mailbox'] }, 'a guard has its mailbox without brackets: guard x : *m { .. }'],

  [/^->/, { wants: '`:`' }, 'what a function gives back stands behind `:`, def f(..): Int { .. }'],

  // calls and expressions
  [/^/, { before: /^(var|val|const|mut)$/, wants: '`;`' }, BINDS],
  [/^/, { before: 'send', wants: '`;`' }, SENT],
  [WORD, { before: /^(await|async|call)$/, wants: '`-`' },
    'a function is called by f(..) alone, and this thread goes on when it has ended'],
  [/^\(/, { before: WORD, wants: '`-`' }, ({ before }) => `a call is no expression: bind its result first, let r = ${before}(..) in`],
  [OPERATOR, { wants: '`in`' }, CALL],
  [OPERATOR, { wants: '`;`' }, 'a call or a send is a step of its own: bind its result first, let r = f(..) in'],
  [/^(<|==)/, { wants: '`-`' }, 'an expression compares once: bind what comes of the first, let r = a < b in'],
  [/^!/, { wants: ['`-`', '`)`'] }, 'a send is a step of its own, and gives nothing back'],
  [/^-(?!>)/, {}, 'a number has no sign: write 0 - 5 for -5'],
  [/^let/, { wants: 'an expression' }, 'a `let` begins a term: in the place of an expression bind it before'],
  [/^(if|new|guard|spawn|print|free)\b/, { wants: 'an expression' },
    ({ here }) => `${code(here)} is no expression: bind what it gives first, let r = .. in`],
  [/^\(/, { before: ']' }, 'a mailbox is made empty, by new[I] alone: send it what it is to know'],
  [/^[!?]/, { wants: '`]`' }, 'a mailbox is made with all its rights, by the interface alone: new[I]'],
  [/^\[/, { wants: 'an expression' }, 'there are no lists: docs/IDIOMS.md has what to write instead'],
  [/^,/, { wants: '`)`' }, 'here stands one expression alone: there are no pairs, and `print` takes one'],
  [/^,/, { wants: '`;`' }, 'between two steps stands `;`'],
  [/^\{/, { before: '}', wants: '`;`' }, 'between two steps stands `;`'],

  // names and steps
  [/^/, { before: 'return' }, 'there is no return: a function gives back what its body ends with'],
  [/^/, { before: /^(while|for|loop)$/ }, 'there is no loop: write a function that calls itself last'],
  [/^/, { before: /^(match|switch|case)$/ }, 'an `if` chooses by a Bool, and a guard by the message that came; there is no other choice'],
  [/^/, { before: /^(fun|fn|lambda)$/, wants: '`in`' }, 'a function is no value: each has its own `def`'],
  [/^=/, { before: /^[+*-]$/ }, 'a name never changes: bind another, let y = x + 1 in; or call the function again with another argument'],
  [/^!/, { wants: '`;`' }, 'what is sent to has a name: let x = new[I] in x ! m(..)'],
  [/^:?=/, { wants: '`;`' }, BINDS],
  [/^:/, { wants: '`=`' }, 'a `let` says no type: let x = .. in'],
  [/^(,|[\p{L}_])/u, { wants: '`=`' }, 'behind `let` stands one name, and then `=`: let x = .. in'],
  [/^\(/, { before: 'let' }, PAIRS],
  [/^\{/, { before: ')', wants: '`;`' }, 'behind a call no block stands; there is no loop, but a function may call itself last'],
  [/^/, { wants: '`in`' }, 'a `let` has `in` behind what it binds: let x = .. in'],
  [/^/, { wants: '`else`' }, 'each `if` has an `else`; where there is nothing to do, write else { () }'],
  [/^[;}]/, { before: ';', wants: 'an expression' }, '`;` stands between two steps, and behind the last one there is none'],
  [/^[;}]/, { before: 'in', wants: 'an expression' }, 'behind `in` stands what is done with the name; where that is nothing, write ()'],
  [/^[;}]/, { wants: 'an expression', before: /^(\{|->)$/ }, 'where there is nothing to do, write ()'],
  [/^/, { before: 'spawn' }, 'what a thread does stands in braces: spawn { .. }'],
  [/^/, { before: 'new' }, 'a mailbox is made by new[I]'],
  [/^/, { before: 'print' }, 'what is printed stands in brackets: print(..)'],
  [/^/, { before: 'free', wants: '`(`' }, 'what is freed stands in brackets: free(x)'],
  [/^(def|interface)\b/, { wants: '`}`' }, 'a `}` is missing before it'],
  [/^\)/, { wants: '`;`' }, 'this `)` closes nothing'],
  [/^\}/, { wants: '`def`' }, 'this `}` closes nothing'],
  [/^;/, { wants: '`def`' }, 'between interfaces and functions nothing stands'],

  // types, patterns and declarations
  [/^\[/, { wants: '`!`' }, LISTS],
  [/^\[/, { wants: 'a type' }, LISTS],
  [/^[?!]/, { wants: 'a type' }, 'the mark stands behind the interface: I! to send, I? to receive'],
  [/^\(/, { wants: 'a type' }, PAIRS],
  [/^/, { before: /^(int|integer|bool|boolean|str|string|unit|void|float)$/, wants: '`!`' },
    'the types of what isn\'t a mailbox are Unit, Bool, Int and String'],
  [/^:/, { wants: '`!`' }, 'what a message brings has a type and no name: m(Int)'],
  [/^[),]/, { wants: '`!`' }, 'the type of a mailbox says what may be done with it: I! to send, I? to receive'],
  [/^[),]/, { wants: 'a pattern', before: /^[!?]$/ }, WRITTEN],
  [/^/, { wants: 'a pattern', before: /^[+.*]$/ },
    'in a pattern `+` is "or" and `.` is "and", between two; a star stands before what it repeats: *m'],
  [/^[),]/, { wants: '`:`' }, 'a parameter has its type: x: Int'],
  [/^\*/, { wants: '`.`' }, 'a star stands before what it repeats: *m'],
  [/^,/, { wants: '`.`' }, 'in a pattern `.` is "and", and `+` is "or": m.n, m + n'],
  [/^\(/, { wants: '`.`' }, 'a pattern has the names of messages alone, without what they bring: m.n'],
  [/^\d/, { wants: '0' }, 'a count is a product: m.m.m is three of m, and *m any number'],
  [/^->/, { wants: ['`,`', '`)`'] }, 'a function is no value: each has its own `def`'],
  [/^=/, { wants: ['`,`', '`)`'] }, 'a parameter has no value of its own: each call gives one'],
  [/^;/, { wants: ['`,`', '`)`'] }, 'between two of them stands a comma'],
  [/^:/, { wants: ['`,`', '`)`'], before: WORD }, 'a clause names what the message brings, without its type: receive m(x) from ..'],
  [/^[\d"]/, { wants: ['`)`', 'a name'] }, 'a clause names what the message brings; an `if` behind -> looks at it'],
  [/^(Int|Bool|String|Unit)\b/, { wants: 'a parameter' }, 'a parameter has its name first: x: Int'],
  [/^\)/, { before: ',' }, 'behind the last one no comma stands'],
  [/^\{/, { wants: '`def`' }, 'what a function has stands in braces, behind its result'],
  [/^[{=]/, { wants: '`:`' }, 'a function says what it gives back: def f(..): Unit { .. }'],
  [/^\}/, { before: '{', wants: 'a message' }, 'an interface has at least one message'],
  [/^def\b/, { wants: 'a message' }, 'an interface lists its messages, with what they bring: m(Int), n()'],
  [/^:/, { wants: ['`,`', '`}`'] }, 'a message gives nothing back: an answer comes to a mailbox that it brings, m(User!Reply)'],
  [WORD, { wants: ['`,`', '`)`'], before: BASE }, 'what a message brings has a type and no name: m(Int)'],
  [WORD, { wants: ['`,`', '`)`'] }, 'between two of them stands a comma'],
  [/^\}/, { before: ',' }, 'behind the last one no comma stands'],
  [/^(;|[\p{L}_])/u, { wants: ['`,`', '`}`'] }, 'between the messages of an interface stands a comma'],
  [/^(,|\}|:|;|from|->)/, { wants: ['`(`'] }, 'a message and a function have brackets, also where they take nothing: m(), f()'],
  [/^/, { before: 'else' }, 'the branches of an `if` stand in braces, also where another `if` comes: else { if .. }'],
  [/^/, { wants: ['`{`', '`-`'] }, 'the branches of an `if` stand in braces'],
  [/^/, { wants: ['`{`', '`.`'] },
    'what a guard does stands in braces, a clause for each message: guard x : *m { receive m(..) from x -> .. }'],
  [/^/, { wants: '`{`' }, 'what an interface or a function has stands in braces: { .. }'],
  [/^/, { wants: '`def`' }, 'a program is interfaces and functions: interface I { m(Int) }, def f(x: Int): Unit { .. }'],
];

/** The hint for what stands at the place: the text from there on, the token that it begins with, the one before, and what is expected. */
export function habitHint({ rest, here, before, expected }) {
  const habit = HABITS.find(([first, conditions]) => first.test(rest) && isAsWanted(conditions, before, expected));
  const hint = habit?.[2] ?? null;
  return typeof hint === 'function' ? hint({ here, before }) : hint;
}
function isAsWanted({ before: prior, wants = [] }, before, expected) {
  const isBefore = prior === undefined || (prior instanceof RegExp ? prior.test(before) : prior === before);
  return isBefore && [wants].flat().every(one => expected.includes(one));
}
