// An explanation as text, with an excerpt of the program.

const STYLES = { bold: '1', red: '1;31', yellow: '1;33', blue: '1;34', dim: '2', green: '32' };
const painters = make => Object.fromEntries(Object.entries(STYLES).map(([name, style]) => [name, make(style)]));
export const PLAIN = painters(() => text => text);
export const COLOURS = painters(style => text => `\x1b[${style}m${text}\x1b[0m`);

const WIDTH = 130;                        // columns of the program's lines
// How a run stands is no error, and neither is what `pat` can't tell.
const TITLES = { done: 'done', waiting: 'waiting', budget: 'budget', full: 'full', open: 'open', undecided: 'can\'t tell',
  unusable: 'can\'t tell', 'too large': 'can\'t tell' };

export function render(source, explanation, { colours = false, width = WIDTH } = {}) {
  const { marks, kind, rule, headline, notes, hints, doc } = explanation, c = colours ? COLOURS : PLAIN;
  const title = TITLES[kind] ?? 'error';
  const excerpt = marks.length ? new Excerpt(source, marks, c, width) : null, pad = ' '.repeat(excerpt?.pad ?? 1);
  const more = (name, text) => `${pad} ${c.blue('=')} ${name ? c.bold(name + ': ') : ''}${printable(text)}`;
  return [
    (title === 'error' ? c.red : c.yellow)(title + (rule ? `[${rule}]` : '')) + c.bold(': ' + printable(headline)),
    ...excerpt ? excerpt.lines() : [],
    ...notes.map(note => more('', note)),
    ...hints.map(hint => more('hint', hint)),
    ...doc ? [more('see', doc)] : [],
  ].join('\n') + '\n';
}

/** The lines that have marks, and what stands under them. A mark that is longer than a line has a bar at the margin. */
class Excerpt {
  constructor(source, marks, paint, width) {
    Object.assign(this, { source, paint, width });
    this.marks = marks.map(one => placed(source, one)).sort((one, other) => one.place.a - other.place.a);
    this.long = this.marks.filter(one => one.last > one.line);
    this.pad = String(Math.max(...this.marks.map(one => one.last))).length;
  }

  lines() {
    const { source, pad, paint } = this, first = this.marks.find(one => one.primary) ?? this.marks[0];
    const out = [`${' '.repeat(pad)}${paint.blue('-->')} ${source.name}:${first.line}:${first.from + 1}`, this.gutter('')];
    let last = null;
    for (const line of this.shown()) {
      if (last !== null && line === last + 2) out.push(this.plain(last + 1));
      else if (last !== null && line > last + 1) out.push((paint.blue('.'.repeat(pad + 1)) + ' ' + this.bars(last + 0.5)).trimEnd());
      out.push(...this.marked(line));
      last = line;
    }
    return out;
  }
  shown() { return [...new Set(this.marks.flatMap(one => [one.line, one.last]))].sort((one, other) => one - other); }

  gutter(label) { return this.paint.blue(String(label).padStart(this.pad)) + ' ' + this.paint.blue('|'); }
  row(label, bars, text) { return `${this.gutter(label)} ${bars}${text}`.trimEnd(); }
  plain(line) { return this.row(line, this.bars(line), clip(this.source.line(line), 0, this.width)); }
  /** The bars of long marks beside a line. */
  bars(line) { return this.long.map(one => this.bar(one, one.line < line && line <= one.last)).join(''); }
  bar(one, there) { return this.tint(one)(there ? '|' : ' ') + ' '; }
  tint(one) { return one.primary ? this.paint.red : this.paint.blue; }

  /** A line of the program, and below it its marks, from right to left. */
  marked(line) {
    const text = this.source.line(line), begin = this.marks.filter(one => one.line === line);
    const end = this.long.filter(one => one.last === line), left = this.leftOf(begin);
    const out = [this.row(line, this.bars(line), clip(text, left, this.width))];
    for (const one of begin.sort((one, other) => other.from - one.from)) out.push(this.under(one, text, left));
    for (const one of end) out.push(this.closing(one));
    return out;
  }
  /** Columns that are left out of a long line, so that its marks are seen; where not all can be, the one that counts. */
  leftOf(marks) {
    const BEFORE = 24, BEHIND = 20, columns = marks.map(one => one.from), fits = left => Math.max(...columns) - left <= this.width - BEHIND;
    if (!marks.length || fits(0)) return 0;
    const left = Math.min(...columns) - BEFORE, main = marks.find(one => one.primary)?.from ?? Math.max(...columns);
    return Math.max(0, fits(left) ? left : main - Math.floor(this.width / 2));
  }
  under(one, text, left) {
    const shift = left ? CUT.length : 0, column = one.from - left + shift, sign = one.primary ? '^' : '-', tint = this.tint(one);
    if (this.long.includes(one)) return this.row('', this.opening(one), tint('_'.repeat(Math.max(0, column)) + sign));
    if (column < shift || column > this.width) return this.row('', this.bars(one.line), tint(`column ${one.from + 1}: ${one.label}`));
    const end = Math.min(one.to, [...text].length, left + this.width), label = one.label ? ' ' + one.label : '';
    return this.row('', this.bars(one.line), ' '.repeat(column) + tint(sign.repeat(Math.max(1, end - one.from)) + label));
  }
  /** The margin where a long mark begins: a line goes from its bar's place to its first column. */
  opening(one) { return this.margin(one, ' _', other => other.line < one.line && one.line < other.last); }
  /** The margin where it ends, and a line from its bar to its last column. */
  closing(one) {
    const label = one.label ? ' ' + one.label : '', line = '_'.repeat(Math.max(0, one.to - 1));
    const margin = this.margin(one, '|_', other => other.line < one.last && one.last < other.last);
    return this.row('', margin, this.tint(one)(line + (one.primary ? '^' : '-') + label));
  }
  /** The bars left of this mark's as they are, then its own sign, and a line over those right of it. */
  margin(one, sign, isThere) {
    const at = this.long.indexOf(one), line = index => this.tint(one)(index === at ? sign : '__');
    return this.long.map((other, index) => index < at ? this.bar(other, isThere(other)) : line(index)).join('');
  }
}

function placed(source, one) {
  const from = source.position(one.place.a), to = source.position(one.place.z);
  return { ...one, label: printable(one.label), line: from.line, from: from.column - 1, last: to.line, to: to.column - 1 };
}

// What would move a terminal's cursor or turn the direction of writing is shown as a mark, and a tab as one column.
const UNPRINTED = /[\u0000-\u001f\u007f-\u009f\u200e\u200f\u202a-\u202e\u2066-\u2069]/gu;
const printable = text => text.replace(/\t/g, ' ').replace(UNPRINTED, '\ufffd');

const CUT = '… ';
function clip(line, left, width) {
  const text = printable(line), all = [...text];
  if (!left && all.length <= width) return text;
  return (left ? CUT : '') + all.slice(left, left + width).join('') + (all.length > left + width ? ' …' : '');
}
