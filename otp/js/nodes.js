// The nodes of a run: which there are, with what words each is started, and that none is left behind.
import { spawn } from 'node:child_process';
import { createServer } from 'node:net';
import { createInterface } from 'node:readline';
import { cpus } from 'node:os';
import { existsSync, readFileSync, writeFileSync } from 'node:fs';
import { Problem, STATUS, withFile } from './problem.js';

/** Beyond these a node that says nothing is taken for lost, in seconds. */
const TICK_TIME = 8;
/** As many processes a node may have: one for each thread, and one for each mailbox that stands alone. */
const PROCESSES = 2 ** 22;
/** A node may have so many kilobytes on their way to another before its senders wait. */
const UNDER_WAY = 65536;

const isLoopback = host => /^127\.\d+\.\d+\.\d+$/.test(host);

/** Below those that a system gives to whoever asks for any port: the node comes to listen there only a while later. */
const PORTS = { from: 12000, to: 32000 }, TRIES = 100;

/** A port that nobody listens at just now, and none of these nodes will. */
async function freePort(host, nodes) {
  for (let tries = 0; tries < TRIES; tries++) {
    const port = PORTS.from + Math.floor(Math.random() * (PORTS.to - PORTS.from));
    if (!nodes.some(node => node.port === port) && await isFree(host, port)) return port;
  }
  throw new Problem(STATUS.machine, `${host}: no port is free`);
}
const isFree = (host, port) => new Promise(done => {
  const server = createServer();
  server.on('error', () => done(false));
  server.listen(port, host, () => server.close(() => done(true)));
});

/** The head first, then the places in order. Each is {name, host, port, command}; with a command it is started by that. */
export async function localNodes(count) {
  const nodes = [];
  for (let place = 0; place <= count; place++) nodes.push(await node(nodes, '127.0.0.1', null, null));
  return nodes;
}
/** The next one, after these. */
async function node(nodes, host, port, command) {
  const place = nodes.length;
  port ??= await freePort(host, nodes);
  return { place, name: `pat_${place}_${port}@${host}`, host, port, command };
}

/** Lines `HOST PORT [COMMAND]`, the head's first; `#` begins a comment. PORT may be `-` where the node is started here. */
export async function hostNodes(file) {
  const text = withFile(STATUS.unread, file, () => readFileSync(file, 'utf8'));
  const lines = text.split('\n').map(line => line.replace(/#.*/, '').trim()).filter(line => line !== '');
  const nodes = [];
  for (const line of lines) {
    const found = /^(\S+)\s+(\d+|-)(?:\s+(.*))?$/.exec(line);
    if (!found || (found[2] === '-' && found[3])) throw wrong(`${file}: no line \`HOST PORT [COMMAND]\`: ${line}`);
    nodes.push(await node(nodes, found[1], found[2] === '-' ? null : Number(found[2]), found[3] ?? null));
  }
  if (nodes.length < 2) throw wrong(`${file}: the head and one node at least have to be named`);
  if (nodes[0].command) throw wrong(`${file}: the head is started here, without a command`);
  return nodes;
}
const wrong = what => new Problem(STATUS.usage, what);

export const areLoopback = nodes => nodes.every(({ host }) => isLoopback(host));

/** The words for `erl` in this folder. (The file for TLS is looked for before there is a working directory.) */
function words(one, folder, { nodes, schedulers, tls }) {
  const here = areLoopback(nodes), share = Math.max(1, Math.floor(cpus().length / nodes.length));
  const many = schedulers ?? (here ? share : null);
  const address = isLoopback(one.host) ? ['-kernel', 'inet_dist_use_interface', `{${one.host.split('.').join(',')}}`] : [];
  return ['-noinput', '-name', one.name, '-start_epmd', 'false', '-epmd_module', 'pat_epmd', '-connect_all', 'false', ...address,
    '-kernel', 'dist_auto_connect', 'never', '-kernel', 'net_ticktime', String(TICK_TIME),
    '-kernel', 'prevent_overlapping_partitions', 'false', '-kernel', 'logger_level', 'error',
    ...(tls ? ['-proto_dist', 'inet_tls', '-ssl_dist_optfile', `${folder}/tls.conf`] : []),
    ...(many === null ? [] : ['+S', `${many}:${many}`]), '+sbwt', 'none', '+P', String(PROCESSES), '+zdbbl', String(UNDER_WAY),
    '-config', one.place === 0 ? 'head' : 'node', '-s', 'pat_otp'];
}

/** The processes of a run. Its folder is the nodes' home: the cookie is there, which no other user may read. */
export class Nodes {
  constructor({ nodes, folder, runtime, ...how }) { Object.assign(this, { nodes, folder, runtime, how, processes: [] }); }

  start() {
    for (const one of [...this.nodes.slice(1), this.nodes[0]]) {
      const child = one.command ? this.elsewhere(one) : this.here(one);
      child.on('error', problem => process.stderr.write(`pat-otp: ${one.name}: ${problem.message}\n`));
      child.on('close', () => this.closed(one));
      this.processes.push(child);
    }
    this.head = this.processes.at(-1);
    writeFileSync(`${this.folder}/pids`, this.processes.map(child => `${child.pid}\n`).join(''));
  }
  /** Whether all nodes were there, so that the head could begin the history. Before that none may be missing. */
  hasBegun() { return existsSync(`${this.folder}/history`); }
  closed({ name }) {
    if (this.hasBegun()) return;
    this.fallen ??= name;
    this.kill();
  }
  words(one, folder) { return words(one, folder, { nodes: this.nodes, ...this.how }); }
  here(one) {
    // (over the fourth the head asks, and its end tells the head that this process is gone)
    const stdio = one.place === 0 ? ['ignore', 'pipe', 'inherit', 'pipe'] : ['ignore', 'ignore', 'inherit'];
    const env = { ...process.env, HOME: this.folder, ERL_CRASH_DUMP_BYTES: '0' };
    return spawn('erl', ['-pa', this.runtime, ...this.words(one, this.folder)], { cwd: this.folder, env, stdio });
  }
  /** The node's folder goes to the command as an archive; there it is unpacked to a new folder, which goes with the node. */
  elsewhere(one) {
    const quoted = this.words(one, '$d').map(word => `"${word}"`).join(' '), files = this.how.tls ? 'tls.conf tls' : '';
    const there = 'd=$(mktemp -d) && trap "rm -rf $d" EXIT && cd "$d" && tar xf - && chmod 400 .erlang.cookie && '
      + `HOME=$d ERL_CRASH_DUMP_BYTES=0 erl -pa ebin ${quoted} </dev/null`;
    const script = `tar cf - -C "$1" .erlang.cookie node.config ${files} -C "$2/.." ebin | ${one.command} "$0"`;
    return spawn('sh', ['-c', script, there, this.folder, this.runtime], { stdio: ['ignore', 'ignore', 'inherit'], detached: true });
  }

  /** Answers each line of the head's by a line, which may take a while. */
  whenAsked(answer) {
    const [,,, connection] = this.head.stdio;
    const lines = createInterface({ input: connection });
    // (where the head is gone, that is seen otherwise)
    for (const one of [connection, lines]) one.on('error', () => {});
    lines.on('line', async line => connection.write(`${await answer(line)}\n`));
  }

  /** The head's end, after which the others end by themselves; those that don't are killed. */
  ended() { return new Promise(done => this.head.on('close', done)); }
  async stop(patience = 10000) {
    const others = this.processes.filter(isAlive);
    await Promise.race([Promise.all(others.map(child => new Promise(done => child.on('close', done)))),
      new Promise(done => setTimeout(done, patience).unref())]);
    this.kill();
  }
  kill() {
    this.processes.forEach((child, at) => {
      if (!isAlive(child)) return;
      const isGroup = this.head !== child && this.nodes[at + 1].command;
      try { process.kill(isGroup ? -child.pid : child.pid, 'SIGKILL'); } catch { /* it has just ended */ }
    });
  }
}
const isAlive = child => child.exitCode === null && child.signalCode === null && child.pid !== undefined;
