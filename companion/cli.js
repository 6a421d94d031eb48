#!/usr/bin/env node
// The companion's command line. It explains what `pat` answers and shows what programs did; verdicts and replays are `pat`'s own.

import { readFileSync } from 'node:fs';
import { commands } from './commands.js';
import { findPat, isMain } from './find.js';
import { nativePat } from './pat.js';
import { Source } from './source.js';

const USAGE = `usage: pat-companion explain FILE..              why a program is refused, and where; one with a derivation, a checkpoint
                                                 or a history behind it is judged
       pat-companion check FILE..                the same, in one line each
       pat-companion run FILE [--quiet]          runs it, and says how it stands if it isn't done; --quiet leaves the history out
       pat-companion trace FILE [HISTORY]        a run as readable text
       pat-companion chart FILE [HISTORY] -o OUT.svg
       pat-companion explore FILE [--states N] [--seconds N] [--end K]
                                                 all orders of events: the ends that they come to; --end K writes one's history
       pat-companion types FILE..                the patterns that were found, beside the signatures
       pat-companion format [--check] FILE..     lays programs out, in place; --check names those that would change
FILE - is the standard input. HISTORY is what \`pat run\` wrote; without it the program is run. --workers N, --steps N and --messages N
go to \`pat run\`. --json writes one JSON value a line. PAT names the program; else it is the one that this checkout built, or \`pat\`.
Exit status: as pat's (0 done, 1 refused, 2 wrong words, 3 to 5 faults, 6 to 8 a run's end), and 9 where pat can't tell.
`;
export const STATUS = { done: 0, wrong: 1, usage: 2, unreadable: 3, unwritable: 4, fault: 5, waiting: 7, open: 9 };

const FLAGS = { '--quiet': 'quiet', '--json': 'json', '--check': 'check' };
const OF_RUNS = new Set(['--workers', '--steps', '--messages']);
const VALUES = { '-o': 'out', '--states': 'states', '--seconds': 'seconds', '--end': 'end' };
class WrongWords extends Error {}

/** {files, options, out, states, seconds, end, quiet, json, check}: `options` are those that go to `pat run`. */
function readWords(words) {
  const flags = { quiet: false, json: false, check: false }, values = { out: null, states: null, seconds: null, end: null };
  const read = { files: [], options: [], ...values, ...flags }, rest = [...words];
  const value = word => rest.shift() ?? wrong(`${word} needs a value`);
  while (rest.length) {
    const word = rest.shift();
    if (Object.hasOwn(FLAGS, word)) read[FLAGS[word]] = true;
    else if (OF_RUNS.has(word)) read.options.push(word, value(word));
    else if (Object.hasOwn(VALUES, word)) read[VALUES[word]] = value(word);
    else if (word.startsWith('-') && word !== '-') wrong(`${word} is no option`);
    else read.files.push(word);
  }
  return read;
}
function wrong(reason) { throw new WrongWords(reason); }

const load = file => new Source(new Uint8Array(readFileSync(file === '-' ? 0 : file)), file === '-' ? 'input' : file);

const toOutput = text => process.stdout.write(text), toErrors = text => process.stderr.write(text);
/** Does what the words say, and gives the exit status. */
export async function main(words, { write = toOutput, complain = toErrors } = {}) {
  const [name, ...rest] = words;
  if (['help', '--help', '-h'].includes(name)) {
    write(USAGE);
    return STATUS.done;
  }
  try {
    if (!Object.hasOwn(commands, name ?? '')) wrong(name ? `${name} is no command` : 'no command');
    const colours = process.stdout.isTTY === true && !process.env.NO_COLOR;
    const context = { ...readWords(rest), load, write, colours, STATUS, wrong };
    if (!context.files.length) wrong('no file');
    return await commands[name]({ ...context, pat: await nativePat(findPat()) });
  } catch (problem) { return fault(problem, complain); }
}
function fault(problem, complain) {
  if (problem instanceof WrongWords) {
    complain(`pat-companion: ${problem.message}\n${USAGE}`);
    return STATUS.usage;
  }
  const noProgram = problem.code === 'ENOENT' && problem.syscall?.startsWith('spawn');
  const what = noProgram ? `${problem.path} isn't there: build it by ./pat help, or let PAT name the program` : problem.message;
  complain(`pat-companion: ${what}\n`);
  if (problem.syscall === 'write') return STATUS.unwritable;
  return ['ENOENT', 'EACCES', 'EISDIR'].includes(problem.code) && !noProgram ? STATUS.unreadable : STATUS.fault;
}

if (isMain(import.meta.url)) {
  // A reader that has seen enough closes its end.
  process.stdout.on('error', problem => process.exit(problem.code === 'EPIPE' ? STATUS.done : STATUS.unwritable));
  process.exitCode = await main(process.argv.slice(2));
}
