// The words that pat-otp is given.
import { LONGEST_PIECE, PIECE } from './pieces.js';
import { Problem, STATUS } from './problem.js';

export const USAGE = `usage: pat-otp [--nodes N | --hosts FILE] [--steps N] [--messages N] [--piece N] [--out HISTORY] FILE
  --nodes N      so many nodes on this machine, from 1 to 63; else 1
  --hosts FILE   a node for each line HOST PORT [COMMAND] (docs/OTP.md)
  --steps N      the run ends after so many steps; else 1,000,000
  --piece N      the history is judged in pieces of so many entries, while the run goes on, from 1 to ${LONGEST_PIECE}; else ${PIECE}
  --messages N   so many messages may be pending, from 1 to 1,000,000; else 1,000,000
  --out HISTORY  where the run's text goes, as \`pat run\` writes it
  --spread all   each new thread goes to the next node, and not the first thread's alone
  --schedulers N for each node on this machine; else its processors are divided among the nodes
  --times        says how long it took, and how much of a processor each node
  --tls, --no-tls  whether the nodes talk through TLS; else where a host is beyond loopback
PAT names the program pat, else it is the one of this checkout.
`;
const MOST_NODES = 63, MOST_MESSAGES = 1_000_000, MOST_STEPS = 10 ** 12, MOST_SCHEDULERS = 1024;

/** What they say; a problem names a word that is none of these. */
export function options(words) {
  const given = { nodes: 1, steps: 1_000_000, messages: MOST_MESSAGES, piece: PIECE, spread: 'main' }, files = [];
  const of = (least, most) => ({ take: word => number(word, least, most), needs: `a whole number from ${least} to ${most}` });
  const file = { take: word => word ?? null, needs: 'the name of a file' };
  const known = {
    nodes: of(1, MOST_NODES), steps: of(0, MOST_STEPS), piece: of(1, LONGEST_PIECE), messages: of(1, MOST_MESSAGES),
    schedulers: of(1, MOST_SCHEDULERS), hosts: file, out: file,
    spread: { take: word => word === 'all' || word === 'main' ? word : null, needs: 'to be all or main' },
  };
  for (let at = 0; at < words.length; at++) {
    const word = words[at], name = word.replace(/^--/, '');
    if (!word.startsWith('--')) files.push(word);
    else if (Object.hasOwn(known, name)) {
      given[name] = known[name].take(words[++at]);
      if (given[name] === null) throw wrong(`${word} needs ${known[name].needs}${words[at] === undefined ? '' : `: ${words[at]}`}`);
    } else if (word === '--times') given.times = true;
    else if (word === '--tls' || word === '--no-tls') given.tls = word === '--tls';
    else throw wrong(`there is no ${word}`);
  }
  if (files.length !== 1) throw wrong(files.length ? `one FILE can be run: ${files.join(' ')}` : 'no FILE is named');
  return { ...given, file: files[0] };
}
const wrong = what => new Problem(STATUS.usage, what);
/** A word as a number of this range; else null. */
export function number(word, least, most) {
  const isOne = /^\d{1,13}$/.test(word ?? '') && Number(word) >= least && Number(word) <= most;
  return isOne ? Number(word) : null;
}
