// Programs of a given size, and runs of programs, for the tests of steps and charts.
import { parse, Source } from '../parse.js';
import { resolve } from '../names.js';
import { readRun, replay } from '../step.js';
import { pat } from './programs.js';

/** A master that gives each of `workers` threads `rounds` jobs, and adds up what they answer. */
export function masterAndWorkers(workers, rounds) {
  const numbers = [...Array(workers).keys()];
  return `interface Sum { Part(Int) }
interface Work { Job(Int, Sum!Part) }
def worker(self: Work?): Unit { guard self : *Job { free -> () receive Job(x, to) from self -> to ! Part(x * 3 + 1); worker(self) } }
def gather(self: Sum?, sum: Int): Unit { guard self : *Part { free -> print(sum) receive Part(x) from self -> gather(self, sum + x) } }
def main(): Unit { let all = new[Sum] in ${numbers.map(at => `let b${at} = new[Work] in spawn { worker(b${at}) }; `).join('')}
${[...Array(rounds).keys()].flatMap(round => numbers.map(at => `b${at} ! Job(${at + 7 * round}, all); `)).join('')}gather(all, 0) }
`;
}

/** Philosophers round a table, each of whom takes the fork on the same side first: they may wait for ever. */
export function philosophers(count, meals = 1) {
  const letter = at => String.fromCharCode(97 + at), numbers = [...Array(count).keys()];
  return `interface Fork { Take(Philosopher!Taken), Release() }
interface Philosopher { Taken() }
def lying(self: Fork?): Unit {
    guard self : *(Take.Release) { free -> () receive Take(philosopher) from self -> philosopher ! Taken(); taken(self) }
}
def taken(self: Fork?): Unit { guard self : Release.*(Take.Release) { receive Release() from self -> lying(self) } }
def philosopher(name: Int, first: Fork!, second: Fork!, meals: Int): Unit {
    if meals == 0 { () } else {
        let me = new[Philosopher] in
        first ! Take(me);
        guard me : Taken { receive Taken() from me -> second ! Take(me); guard me : Taken { receive Taken() from me ->
            free(me); print(name); first ! Release(); second ! Release(); philosopher(name, first, second, meals - 1) } }
    }
}
def main(): Unit {
    ${numbers.map(at => `let ${letter(at)} = new[Fork] in spawn { lying(${letter(at)}) };`).join('\n    ')}
    ${numbers.map(at => `spawn { philosopher(${at}, ${letter(at)}, ${letter((at + 1) % count)}, ${meals}) }`).join(';\n    ')}
}
`;
}

export function programOf(text) {
  const program = parse(new Source(text));
  resolve(program);
  return program;
}
/** A run of a program, replayed; `options` are those of \`pat run\`. */
export function runOf(text, options = []) {
  const bytes = typeof text === 'string' ? Buffer.from(text) : text, answer = pat(['run', ...options], bytes).text, run = readRun(answer);
  if (!run) throw new Error(answer);
  return { ...replay(programOf(bytes), run.history, { outcome: run.outcome }), history: run.history, text: answer };
}

/** Numbers from 0 to below `count`, the same ones for the same seed. */
export function randomFrom(seed) {
  let state = seed >>> 0;
  return count => {
    state = Math.imul(state ^ (state >>> 15), 0x2c1b3c6d) + 0x9e3779b9 >>> 0;
    return ((state ^ (state >>> 13)) >>> 0) % count;
  };
}
/** Clients that take forks in any order, put numbers into a cell that keeps the last one, and print: some of them can wait for ever. */
export function clients(random) {
  const count = random(4) ? 2 : 3, forks = count === 3 ? 1 : 2, all = [...Array(count).keys()].map(at => client(random, at, forks)).join('\n');
  const letters = [...Array(forks).keys()].map(at => `f${at}`), given = letters.join(', ');
  return `interface Fork { Take(User!Taken), Release() }
interface User { Taken() }
interface Cell { Put(Int) }
def lying(self: Fork?): Unit { guard self : *(Take.Release) { free -> () receive Take(user) from self -> user ! Taken(); taken(self) } }
def taken(self: Fork?): Unit { guard self : Release.*(Take.Release) { receive Release() from self -> lying(self) } }
def cell(self: Cell?, last: Int): Unit {
    guard self : *Put { free -> ${random(2) ? 'print(last)' : 'if last < 2 { print(true) } else { () }'} receive Put(x) from self -> cell(self, x) }
}
${all}
def main(): Unit {
    ${letters.map(letter => `let ${letter} = new[Fork] in spawn { lying(${letter}) };`).join(' ')}
    let c = new[Cell] in spawn { cell(c, 0) };
    ${[...Array(count).keys()].map(at => `spawn { client${at}(c, ${given}) }`).join('; ')}
}
`;
}
function client(random, number, forks) {
  const free = new Set([...Array(forks).keys()].map(at => `f${at}`)), names = [...free], taken = [];
  const steps = [];
  for (let count = 3 + random(3); count > 0; count--) {
    const pick = random(7);
    if (pick === 0) steps.push(`print(${number * 10 + random(2)})`);
    else if (pick === 1) steps.push(`c ! Put(${random(4)})`);
    else if (pick < 5 && free.size) {
      const fork = [...free][random(free.size)];
      free.delete(fork); taken.push(fork); steps.push(`take ${fork}`);
    } else if (taken.length) steps.push(`${taken.splice(random(taken.length), 1)[0]} ! Release()`);
  }
  taken.forEach(fork => steps.push(`${fork} ! Release()`));
  const body = steps.reduceRight((rest, step) => !step.startsWith('take') ? `${step}; ${rest}`
    : `${step.slice(5)} ! Take(me); guard me : Taken { receive Taken() from me -> ${rest} }`, 'free(me)');
  return `def client${number}(c: Cell!*Put, ${names.map(name => `${name}: Fork!`).join(', ')}): Unit { let me = new[User] in ${body} }`;
}
