// Where the tests find `pat` and programs: PAT names the program; the programs are those of examples/, those of first/, and ones made
// at random by tests/hard/programs.py, if python3 is there. CORPUS may name a further folder of programs.

import { spawnSync } from 'node:child_process';
import { existsSync, readFileSync, readdirSync } from 'node:fs';
import { dirname, join, relative } from 'node:path';
import { fileURLToPath } from 'node:url';
import { nativePat } from '../pat.js';

const here = dirname(fileURLToPath(import.meta.url));
export const root = join(here, '../..');
process.chdir(root);
export const pat = await nativePat(process.env.PAT ?? './crates/pat_cli/out/pat_cli');

const folders = ['examples', 'examples/wrong', relative(root, join(here, 'first')), ...process.env.CORPUS ? [process.env.CORPUS] : []];
export const filesIn = folder => readdirSync(folder).filter(file => file.endsWith('.pat')).sort().map(file => join(folder, file));
const asked = (name, bytes) => ({ name, bytes, verdict: pat(['check'], bytes).text.split('\n', 1)[0] });

/** {name, bytes, verdict} of all programs. */
export const programs = folders.filter(existsSync).flatMap(filesIn).map(file => asked(file, readFileSync(file)));
export const accepted = programs.filter(({ verdict }) => verdict === 'accepted');
export const isReadable = ({ verdict }) => !/^(syntax error|too deep|too long|number too wide)/.test(verdict);

const MAKE = `
import base64, json, random, sys
sys.path.insert(0, "tests/hard"); sys.dont_write_bytecode = True
import programs
seed, count, change = int(sys.argv[1]), int(sys.argv[2]), sys.argv[3]
given = [base64.b64decode(it) for it in json.load(sys.stdin)]
RESERVED = set(b"interface def let in if else print new spawn guard free fail receive from true false Unit Bool Int String".split())
def exchanged(source, text):
    tokens = programs.TOKEN.findall(text)
    names = [n for n, it in enumerate(tokens) if it[:1].isalpha() and it not in RESERVED]
    marks = [n for n, it in enumerate(tokens) if it in (b"!", b"?", b"*")]
    if marks and source.random() < 0.2:
        at = source.choice(marks)
        tokens[at] = {b"!": b"?", b"?": b"!", b"*": b""}[tokens[at]]
    else:
        at = source.choice(names)
        tokens[at] = source.choice([tokens[n] for n in names if tokens[n][:1].isupper() == tokens[at][:1].isupper() and abs(n - at) < 60])
    return b"".join(tokens)
made = []
for number in range(count):
    source = random.Random(seed * 1000003 + number)
    text = source.choice(given) if change != "no" and source.random() < 0.7 else programs.Maker(source).program()
    made.append(programs.change(source, text, given) if change == "any" else exchanged(source, text) if change == "exchange" else text)
print(json.dumps([base64.b64encode(it).decode() for it in made]))
`;
/**
 * Programs made at random; [] where there is no python3. `change` is 'any', and mostly leaves no program, or 'exchange', which puts a name
 * or mark of the text in the place of another one, and mostly leaves one that is refused for its types.
 */
export function madeAtRandom({ seed, count, change = 'no' }) {
  const input = JSON.stringify(programs.map(({ bytes }) => bytes.toString('base64')));
  const words = ['-c', MAKE, String(seed), String(count), change];
  const { error, status, stdout, stderr } = spawnSync('python3', words, { input, maxBuffer: 1 << 28 });
  if (error?.code === 'ENOENT') return [];
  if (status !== 0) throw new Error(stderr.toString());
  return JSON.parse(stdout).map((text, number) => asked(`seed ${seed}, number ${number}`, Buffer.from(text, 'base64')));
}
