// Runs a program of pat on several Erlang nodes. `pat check` says before that the program is safe, and `pat replay` says, piece by
// piece, whether what is left of the run is a run of the program, what it printed and how it stands. What is decided here is how the
// nodes are started, that the lines which were shown are those that `pat replay` says (record.js), and the exit status.
import { spawnSync } from 'node:child_process';
import { chmodSync, existsSync, mkdirSync, mkdtempSync, readFileSync, readdirSync, renameSync, rmSync, statSync, writeFileSync }
  from 'node:fs';
import { randomBytes } from 'node:crypto';
import { tmpdir } from 'node:os';
import { join, resolve } from 'node:path';
import { parse, Source } from '../../companion/parse.js';
import { Front } from './front.js';
import { USAGE, options } from './options.js';
import { OTP, pat } from './pat.js';
import { Problem, STATUS, withFile } from './problem.js';
import { Record, Text } from './record.js';
import { Translation } from './translate.js';
import { Nodes, areLoopback, hostNodes, localNodes } from './nodes.js';
import { certificates } from './tls.js';

/** Standard output is for lines of the program alone. */
const LOGGER = '{kernel, [{logger, [{handler, default, logger_std_h, #{config => #{type => standard_error}}}]}]}';
/** The module that the nodes run, below their folder. */
const PROGRAM = 'program.erl';

const say = text => process.stderr.write(`pat-otp: ${text}\n`);

/** The folder of the compiled runtime, which is made where a source is newer. (Tests name another one.) */
function runtime() {
  if (process.env.PAT_OTP_RUNTIME) return resolve(process.env.PAT_OTP_RUNTIME);
  const ebin = join(OTP, 'ebin'), application = join(ebin, 'pat_otp.app');
  const files = folder => readdirSync(join(OTP, folder)).map(name => join(folder, name));
  const sources = files('src'), made = [...sources, ...files('include')];
  const newest = Math.max(...made.map(name => statSync(join(OTP, name)).mtimeMs));
  if (existsSync(application) && statSync(application).mtimeMs > newest) return ebin;
  mkdirSync(ebin, { recursive: true });
  // (made beside it and moved: another run may just be starting its nodes)
  const fresh = mkdtempSync(join(ebin, 'new-'));
  const done = spawnSync('erlc', ['+debug_info', '-I', 'include', '-o', fresh, ...sources.filter(name => name.endsWith('.erl'))],
    { cwd: OTP, stdio: ['ignore', 2, 2] });
  if (done.status === 0) for (const name of readdirSync(fresh)) renameSync(join(fresh, name), join(ebin, name));
  rmSync(fresh, { recursive: true });
  if (done.status !== 0) throw new Problem(STATUS.machine, 'the runtime in otp/src can\'t be compiled');
  writeFileSync(application, readFileSync(join(OTP, 'src/pat_otp.app.src')));
  return ebin;
}

/** The program and the nodes' words, in a folder that this user alone may read. */
function prepare(folder, program, { nodes, steps, messages, piece, spread }) {
  writeFileSync(join(folder, '.erlang.cookie'), randomBytes(24).toString('hex'));
  chmodSync(join(folder, '.erlang.cookie'), 0o400);
  writeFileSync(join(folder, PROGRAM), new Translation(program).module('program'));
  const names = nodes.slice(1).map(({ name }) => `'${name}'`).join(', ');
  const words = `{role, head}, {nodes, [${names}]}, {folder, "."}, {program, "program"}, {steps, ${steps}}, {messages, ${messages}}, `
    + `{piece, ${piece}}, {spread, ${spread}}`;
  writeFileSync(join(folder, 'head.config'), `[{pat_otp, [${words}]}, ${LOGGER}].\n`);
  writeFileSync(join(folder, 'node.config'), `[{pat_otp, [{role, node}]}, ${LOGGER}].\n`);
}

/** Tells the head, where a node was lost, where the history leads by now; says `unknown` where that goes wrong. */
function goOnFrom(front, folder, loss) {
  say(`${loss}: the run goes on without what isn't in its history by now`);
  try {
    front.goOn(folder);
    const { text, bytes } = front.written('program');
    writeFileSync(join(folder, PROGRAM), text);
    writeFileSync(join(folder, 'configuration'), bytes);
    return 'known';
  } catch (problem) {
    say(`it isn't known where the history leads: ${problem.message}`);
    return 'unknown';
  }
}

/** Judges what is there of the history while the run goes on, and ends the run where that isn't right. */
async function judgeMeanwhile(record, nodes) {
  const judged = await record.judgeWhole();
  if (record.isWrong()) nodes.kill();
  return `judged ${judged}`;
}

/** What the nodes made of it: how they say that it ended, how long it took, and the outcome that its history has. */
async function runOn(nodes, folder, record) {
  let failed = null;
  nodes.start();
  nodes.whenAsked(line => line === 'piece' ? judgeMeanwhile(record, nodes).catch(problem => { failed = problem; nodes.kill(); })
    : goOnFrom(record.front, folder, line));
  nodes.head.stdout.on('data', piece => { process.stdout.write(piece); record.show(piece); });
  await nodes.ended();
  await nodes.stop();
  if (failed) throw new Problem(STATUS.machine, failed.message);
  if (!nodes.hasBegun() && !existsSync(join(folder, 'ended'))) throw notStarted(`${nodes.fallen} ended before the run began`);
  const [ending, took, times] = existsSync(join(folder, 'ended')) ? readFileSync(join(folder, 'ended'), 'utf8').split('\n')
    : ['lost the head'];
  const [how, ...what] = ending.split(' ');
  if (how === 'absent') throw notStarted(`the head waited in vain for ${what.join(', ')}`);
  if (how === 'failed') throw new Problem(STATUS.machine, `the runtime failed in a thread: ${what.join(' ')}`);
  return { ending, took, times, outcome: await record.last() };
}

const notStarted = why => new Problem(STATUS.machine, `not all nodes could be started: ${why}`);

/** The last line and the exit status; `wrong` says what doesn't fit. */
function conclude({ ending, outcome }, record) {
  const isVoid = `what was shown${record.common ? ` behind the first ${record.common} lines` : ''} is void`;
  const refuse = wrong => ({ line: outcome, status: STATUS.refused, wrong });
  if (record.refusal !== null) return refuse(`the history is no run of the program: ${isVoid}`);
  if (record.differs || record.shown.length || (record.printed.length && !ending.startsWith('lost')))
    return refuse(`the lines that were shown aren't those of the history: ${isVoid}`);
  const [word, steps] = outcome.split(' ');
  if (word !== 'open') return { line: outcome, status: STATUS[word] };
  if (ending === 'budget' || ending === 'full') return { line: `${ending} ${steps}`, status: STATUS[ending] };
  if (ending === 'long') return { line: outcome, status: STATUS.budget, note: 'the numbers of a history are spent: the run ends here' };
  if (ending.startsWith('lost'))
    return { line: outcome, status: STATUS.lost, note: `no node is left to go on (${ending}): this is how far the history leads` };
  return refuse(`the nodes say that the run ended (${ending}), and its history is open`);
}

async function main(words) {
  const given = options(words);
  const source = new Source(withFile(STATUS.unread, given.file, () => new Uint8Array(readFileSync(given.file))));
  const checked = await pat(['check'], [source.bytes]);
  if (checked.status !== 0) return refuse(given.file, checked);
  const nodes = given.hosts ? await hostNodes(given.hosts) : await localNodes(given.nodes);
  const tls = given.tls ?? !areLoopback(nodes);
  const folder = mkdtempSync(join(tmpdir(), 'pat-otp-'));
  const all = new Nodes({ nodes, folder, runtime: runtime(), schedulers: given.schedulers, tls });
  process.on('exit', () => { all.kill(); rmSync(folder, { recursive: true, force: true }); });
  for (const signal of ['SIGINT', 'SIGTERM', 'SIGHUP']) process.on(signal, () => process.exit(130));
  const program = parse(source);
  prepare(folder, program, { ...given, nodes });
  if (tls) certificates(folder, nodes);
  const text = given.out ? withFile(STATUS.unwritten, given.out, () => new Text(given.out, folder)) : null;
  // (the head and one node alone: no run goes on without that node)
  const front = nodes.length > 2 ? new Front(program) : null;
  const record = new Record({ folder, program: source.bytes, front, text });
  return finish(await runOn(all, folder, record), record, given);
}
async function finish(run, record, given) {
  const end = conclude(run, record);
  // A lost head may not have shown all that its history has.
  if (!end.wrong) process.stdout.write(record.printed);
  process.stdout.write(`${end.line}\n`);
  if (record.text) await record.text.end(end.line);
  for (const text of [end.note, end.wrong]) if (text) say(text);
  if (given.times) say(`${run.took} microseconds; milliseconds of a processor, of the head and each node: ${run.times}`);
  return end.status;
}
function refuse(file, { status, text }) {
  process.stdout.write(text);
  if (status === STATUS.refused) say(`the program isn't accepted: \`./pat-companion explain ${file}\` says why`);
  return status;
}

try { process.exitCode = await main(process.argv.slice(2)); } catch (problem) {
  say(problem.status ? problem.message : problem.stack);
  if (problem.status === STATUS.usage) process.stderr.write(USAGE);
  process.exitCode = problem.status ?? STATUS.machine;
}
