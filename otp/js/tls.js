// Certificates for one run: an authority that lives as long as the run's folder, and for each node a key that it has signed.
import { spawnSync } from 'node:child_process';
import { mkdirSync, rmSync, writeFileSync } from 'node:fs';
import { join } from 'node:path';
import { Problem, STATUS } from './problem.js';

const KEY = ['-newkey', 'ec', '-pkeyopt', 'ec_paramgen_curve:P-256', '-nodes'];
/** A run that goes on for longer needs certificates made anew. */
const DAYS = '30';

const isAddress = host => /^[\d.]+$|:/.test(host);

function openssl(folder, words) {
  const done = spawnSync('openssl', words, { cwd: folder, encoding: 'utf8' });
  if (done.error) throw new Problem(STATUS.machine, 'openssl isn\'t on the path: install the package openssl');
  if (done.status !== 0) throw new Problem(STATUS.machine, `openssl ${words[0]}: ${done.stderr}`);
}

/** In `tls/`: the authority's certificate, and a key and certificate that all nodes of the run have, with their hosts in it. */
export function certificates(folder, nodes) {
  const there = join(folder, 'tls');
  mkdirSync(there, { mode: 0o700 });
  const hosts = [...new Set(nodes.map(({ host }) => host))];
  // (Erlang looks for an address among the names as well)
  const names = hosts.flatMap(host => isAddress(host) ? [`IP:${host}`, `DNS:${host}`] : [`DNS:${host}`]).join(',');
  openssl(there, ['req', '-x509', ...KEY, '-keyout', 'authority.key', '-out', 'authority.pem', '-days', DAYS,
    '-subj', '/CN=one run of pat-otp']);
  openssl(there, ['req', ...KEY, '-keyout', 'node.key', '-out', 'node.csr', '-subj', '/CN=node of pat-otp']);
  writeFileSync(join(there, 'node.ext'), `subjectAltName=${names}\nextendedKeyUsage=serverAuth,clientAuth\n`);
  openssl(there, ['x509', '-req', '-in', 'node.csr', '-CA', 'authority.pem', '-CAkey', 'authority.key', '-set_serial', '2',
    '-days', DAYS, '-extfile', 'node.ext', '-out', 'node.pem']);
  for (const name of ['authority.key', 'node.csr', 'node.ext']) rmSync(join(there, name));
  writeFileSync(join(folder, 'tls.conf'), options());
}

/** Each side asks for the other's certificate, and takes it if the run's authority signed it for the host that it is at. */
function options() {
  const both = '{certfile, "tls/node.pem"}, {keyfile, "tls/node.key"}, {cacertfile, "tls/authority.pem"}, {verify, verify_peer}, '
    + '{secure_renegotiate, true}, {versions, [\'tlsv1.2\']}';
  return `[{server, [${both}, {fail_if_no_peer_cert, true}]},\n {client, [${both}]}].\n`;
}
