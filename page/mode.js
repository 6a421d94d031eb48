// Colours of the language, for CodeMirror.

const BASES = new Set(['Unit', 'Bool', 'Int', 'String']), TRUTHS = new Set(['true', 'false']);

function styleOfWord(name, before, isCalled, reserved) {
  if (BASES.has(name)) return 'builtin';
  if (TRUTHS.has(name)) return 'atom';
  if (reserved.has(name)) return 'keyword';
  if (before === 'def') return 'def';
  if (/^\p{Lu}/u.test(name)) return 'variable-2';
  return isCalled ? 'variable-3' : 'variable';
}

export function defineMode(CodeMirror, reserved) {
  CodeMirror.defineMode('pat', () => ({
    startState: () => ({ before: null }),
    token(stream, state) {
      if (stream.eatSpace()) return null;
      if (stream.match(/^\/\/.*/)) return 'comment';
      if (stream.match(/^"(?:[^"\\]|\\["\\])*"?/)) return 'string';
      if (stream.match(/^[0-9]+/)) return 'number';
      const word = stream.match(/^[\p{XID_Start}_]\p{XID_Continue}*/u), { before } = state;
      state.before = word ? word[0] : null;
      if (word) return styleOfWord(word[0], before, stream.match(/^\s*\(/, false), reserved);
      const [mark] = stream.match(/^(?:==|->|.)/u);
      return mark === '!' || mark === '?' ? 'mark' : 'operator';
    },
    lineComment: '//',
  }));
}
