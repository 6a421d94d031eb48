// Text to tokens (docs/LANGUAGE.md, "Tokens"). Comments and empty lines are kept beside the tokens, for the formatter.

import { sizeInBytes } from './source.js';

export const RESERVED = new Set(
  'interface def let in if else print new spawn guard free fail receive from true false Unit Bool Int String'.split(' '));

const TOKEN = new RegExp([
  '(?<blank>[ \\t\\r\\n]+)',
  '(?<comment>//[^\\n]*)',
  '(?<name>[\\p{XID_Start}_]\\p{XID_Continue}*)',
  '(?<int>[0-9]+)',
  '(?<string>"(?:[^"\\\\\\u0000-\\u001f]|\\\\["\\\\])*")',
  '(?<mark>==|->|[(){}\\[\\],;:.+\\-*<!?=])',
].join('|'), 'uy');

function typeOf({ name, int, string }) {
  if (name !== undefined) return RESERVED.has(name) ? 'word' : 'name';
  if (int !== undefined) return 'int';
  return string !== undefined ? 'string' : 'mark';
}

/**
 * Tokens, each {type, text, a, z, comments, lines}: `comments` stand before it, each {text, a, z, lines}, and `lines` counts the
 * newlines between it and what stands before. The last token is of type `end`. `bad` is the first offset where no token fits.
 */
export function tokenize(source) {
  const tokens = [], { text } = source;
  let index = 0, offset = 0, comments = [], lines = 0, bad = null;
  while (index < text.length) {
    TOKEN.lastIndex = index;
    const found = TOKEN.exec(text);
    const [spelled] = found ?? [''], { groups } = found ?? {};
    const a = offset, z = a + (source.plain ? spelled.length : sizeInBytes(spelled));
    if (!found || source.invalid !== null && z > source.invalid) {
      bad = offset;
      break;
    }
    if (groups.blank !== undefined) lines += spelled.split('\n').length - 1;
    else if (groups.comment !== undefined) {
      comments.push({ text: spelled.trimEnd(), a, z, lines });
      lines = 0;
    } else {
      tokens.push({ type: typeOf(groups), text: spelled, a, z, comments, lines });
      comments = [];
      lines = 0;
    }
    index += spelled.length;
    offset = z;
  }
  const end = bad ?? source.bytes.length;
  tokens.push({ type: 'end', text: '', a: end, z: end, comments, lines });
  return { tokens, bad };
}
