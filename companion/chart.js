// A replayed history as a message sequence chart in SVG. A lifeline for each thread; a mailbox is a colour, and its arrows have a kind of
// line besides, for black and white; a message is an arrow from its send's row to its receive's, so how steep it is, is how long it lay.
// Rows are entries; those of local steps alone take none. Waiting is dotted, with the guard's pattern beside it.
// It draws what chart_layout.js places, and decides nothing.

import { sayOutcome } from './step.js';
import { sayStanding } from './trace.js';
import { layOut, rowsOf, ROW } from './chart_layout.js';

const PAGE = 60, LEAST = 0.25;              // rows of a page; less than this part of one goes to the page before
const HEADING = 56, LINE = 17, LEGEND_LINE = 22; // heights: of the heading, of a line of text below, of a row of the legend
const COLOURS = 12;
const LIGHT = '#c0392b #1f6fb2 #2e8b57 #8e44ad #c2570c #00838f #6d4c41 #ad1457 #558b2f #3949ab #9a7300 #455a64'.split(' ');
const DARK = '#ff8a7a #74b8f2 #6fcf97 #cf9bea #ffa45c #4dd0e1 #c8a690 #ff8ab8 #a5d66f #9fa8f5 #e0be4a #a9bcc6'.split(' ');
const LINES = ['none', '9 3', '9 3 2 3', '4 2.5'];
const LIGHT_REST = { paper: '#fff', band: '#f6f6f4', ink: '#222', line: '#444', soft: '#666', faint: '#888', stuck: '#c0392b',
  note: '#fffbe6', noteline: '#b8a13a', notetext: '#5c4d00' };
const DARK_REST = { paper: '#16181c', band: '#1c1f24', ink: '#e6e6e3', line: '#b9bcc2', soft: '#9aa0a8', faint: '#767b83',
  stuck: '#ff8a7a', note: '#2f2a14', noteline: '#8f7f34', notetext: '#f0dd9a' };
const MONO = '"DejaVu Sans Mono",ui-monospace,monospace', SANS = '"DejaVu Sans",system-ui,sans-serif';
const RULES = {
  text: `font:11px ${MONO};fill:var(--ink)`, '.h': `font:bold 17px ${SANS}`, '.sub': `font:11px ${SANS};fill:var(--soft)`,
  '.stuck': `font:11.5px ${SANS};fill:var(--stuck)`, '.name': 'font-weight:bold', '.no': 'font-size:9px;fill:var(--faint)',
  '.said': 'fill:var(--c);stroke:var(--paper);stroke-width:3.5px;stroke-linejoin:round;paint-order:stroke',
  '.wait': 'font-style:italic', '.state': 'font-style:italic;fill:var(--soft)', '.note': 'fill:var(--notetext)',
  '.even': 'fill:var(--band)',
  '.row': 'fill:none;pointer-events:all', '.paper': 'fill:var(--paper)', '.life': 'stroke:var(--line);stroke-width:2.2',
  '.gap': 'stroke:var(--paper);stroke-width:3.6', '.dotted': 'stroke:var(--faint);stroke-width:1.6;stroke-dasharray:2 4',
  '.ever': 'stroke:var(--stuck)', '.open': 'fill:var(--stuck)', '.worker': 'fill:var(--soft)',
  '.arrow': 'stroke:var(--c);stroke-width:1.7;fill:none;stroke-dasharray:var(--d)', '.fill': 'fill:var(--c)',
  '.made': 'fill:var(--paper);stroke:var(--c);stroke-width:2', '.spawn': 'stroke:var(--line);stroke-width:1;fill:none',
  '.box': 'fill:var(--paper);stroke:var(--line);stroke-width:1.3', '.paperbox': 'fill:var(--note);stroke:var(--noteline)',
  '.printed': 'fill:var(--noteline)', '.cross': 'stroke:var(--paper);stroke-width:1.5', '.left': 'stroke:var(--stuck);stroke-width:1.8',
  '.end': 'stroke:var(--line);stroke-width:3',
};
const indexes = [...Array(COLOURS).keys()], lineOf = index => LINES[index % LINES.length];
const rules = spell => Object.entries(RULES).map(([name, rule]) => spell(name, rule)).join('');

/** The rules with variables, so that a page may have a light and a dark side. */
export const STYLE = pageStyle();
function pageStyle() {
  const spell = (palette, rest) => [...palette.map((colour, index) => `--m${index}:${colour}`),
    ...Object.entries(rest).map(([name, colour]) => `--${name}:${colour}`)].join(';');
  const light = spell(LIGHT, LIGHT_REST), dark = spell(DARK, DARK_REST);
  return `.chart{${light}}@media (prefers-color-scheme:dark){.chart{${dark}}}:root[data-theme=light] .chart{${light}}`
    + `:root[data-theme=dark] .chart{${dark}}${rules((name, rule) => `.chart ${name}{${rule}}`)}`
    + indexes.map(index => `.chart .c${index}{--c:var(--m${index});--d:${lineOf(index)}}`).join('');
}
/** The same rules on white paper and without variables, which many viewers of pictures don't know. */
function paperStyle() {
  const settle = (rule, index) => rule.replace('var(--c)', LIGHT[index]).replace('var(--d)', lineOf(index))
    .replace(/var\(--(\w+)\)/g, (_, name) => LIGHT_REST[name]);
  const spell = (name, rule) => !/var\(--[cd]\)/.test(rule) ? `${name}{${settle(rule, 0)}}`
    : indexes.map(index => `${name}.c${index}{${settle(rule, index)}}`).join('');
  return rules(spell);
}

const escape = text => text.replace(/[&<>"]/g, one => ({ '&': '&amp;', '<': '&lt;', '>': '&gt;', '"': '&quot;' })[one]);
const n = value => Number(value.toFixed(1));
const colourOf = mailbox => `c${mailbox.number % COLOURS}`;
const text = (x, y, said, cls, anchor = 'start') =>
  `<text x="${n(x)}" y="${n(y)}" class="${cls}"${anchor === 'start' ? '' : ` text-anchor="${anchor}"`}>${escape(said)}</text>`;
const line = (x1, y1, x2, y2, cls) => `<line x1="${n(x1)}" y1="${n(y1)}" x2="${n(x2)}" y2="${n(y2)}" class="${cls}"/>`;
const path = (data, cls) => `<path d="${data}" class="${cls}"/>`;
const diamond = (x, y, cls) => path(`M${n(x)},${n(y - 7.2)} l7.2,7.2 l-7.2,7.2 l-7.2,-7.2 z`, cls);
const head = (x, y, ux, uy, cls) => path(`M${n(x)},${n(y)} L${n(x - ux * 10 - uy * 4)},${n(y - uy * 10 + ux * 4)} `
  + `L${n(x - ux * 10 + uy * 4)},${n(y - uy * 10 - ux * 4)} z`, cls);

/**
 * The chart of `run`, which is from replay of step.js, as one picture: rows `from` on, `most` of them. Without a title it has no heading
 * and no legend, without paper no background.
 */
export function chart(run, { title = 'run', from = 0, most = Infinity, paper = true } = {}) {
  const placed = layOut(run, { from, most, top: title === null ? 0 : HEADING }), legend = title === null ? [] : LEGEND;
  const foot = placed.height + LINE, below = foot + LINE * placed.stuck.length, tall = below + LINE + LEGEND_LINE * legend.length;
  const width = Math.max(placed.width, legend.length ? LEGEND_WIDTH : 0);
  const parts = [
    ...drawRows(placed, width), ...drawLifelines(placed), ...placed.spawns.flatMap(drawSpawn), ...placed.arrows.flatMap(drawArrow),
    ...placed.marks.flatMap(drawMark), ...[...placed.heads, ...placed.labels].flatMap(drawLabel), ...drawWorkers(placed),
    ...(title === null ? [] : drawHeading(run, placed, title)),
    ...placed.stuck.map((one, index) => sayStuck(run, one, foot + LINE * (index + 0.5))),
    ...legend.flatMap((entries, index) => drawLegend(entries, below + LEGEND_LINE * (index + 0.7))),
  ];
  const size = `width="${n(width)}" height="${n(tall)}" viewBox="0 0 ${n(width)} ${n(tall)}"`;
  const ground = paper ? '<rect width="100%" height="100%" class="paper"/>' : '';
  return `<svg xmlns="http://www.w3.org/2000/svg" class="chart" role="img" ${size}><title>${escape(title ?? 'chart of a run')}</title>`
    + `<style>${paper ? paperStyle() : STYLE}</style>${ground}\n${parts.join('\n')}\n</svg>\n`;
}
/** The chart in as many pictures as it needs: {name, text}; one has the name that was given, several are numbered. */
export function chartPages(run, { title = 'run', name = 'chart.svg', most = PAGE } = {}) {
  const pages = Math.max(1, Math.ceil(rowsOf(run) / most - LEAST));
  if (pages === 1) return [{ name, text: chart(run, { title }) }];
  const [, stem, ending] = /^(.*?)(\.[^./]*)?$/s.exec(name), digits = String(pages).length;
  return [...Array(pages).keys()].map(page => ({
    name: `${stem}-${String(page + 1).padStart(digits, '0')}${ending ?? ''}`,
    text: chart(run, { title: `${title}, page ${page + 1} of ${pages}`, from: page * most,
      most: page + 1 === pages ? Infinity : most }),
  }));
}

// --------------------------------------------------------------------------------------------------------------- drawing

function drawRows({ rows, left }, width) {
  return rows.flatMap(({ entry, y }, index) => [
    ...(index % 2 ? [] : [`<rect x="${left}" y="${n(y - ROW / 2)}" width="${n(width - left)}" height="${ROW}" class="even"/>`]),
    `<rect x="0" y="${n(y - ROW / 2)}" width="${n(width)}" height="${ROW}" class="row" data-entry="${entry}"/>`]);
}
function drawLifelines({ lifelines, waits, heads, top }) {
  const middle = box => (box.left + box.right) / 2;
  return [
    ...heads.map(({ box }) => line(middle(box), box.bottom, middle(box), top, 'life')),
    ...lifelines.map(one => line(one.x, one.top, one.x, one.bottom, 'life')),
    ...waits.flatMap(drawWait),
  ];
}
function drawWait({ x, top, bottom, ever }) {
  const dotted = [line(x, top, x, bottom, 'gap'), line(x, top, x, bottom, `dotted${ever ? ' ever' : ''}`)];
  return ever ? [...dotted, path(`M${n(x - 5)},${n(bottom + 1)} l5,8 l5,-8 z`, 'open')] : dotted;
}
function drawSpawn({ segments: [{ x1, y1, x2, y2 }] }) {
  const back = n(x2 - 7 * (Math.sign(x2 - x1) || 1));
  return [line(x1, y1, x2, y2, 'spawn'), path(`M${back},${n(y2 - 4)} L${n(x2)},${n(y2)} L${back},${n(y2 + 4)}`, 'spawn')];
}
function drawArrow({ segments, mailbox, headless }) {
  const cls = colourOf(mailbox), last = segments.at(-1), far = Math.hypot(last.x2 - last.x1, last.y2 - last.y1) || 1;
  const ux = (last.x2 - last.x1) / far, uy = (last.y2 - last.y1) / far, back = headless ? 0 : 8;
  const points = [[segments[0].x1, segments[0].y1], ...segments.slice(0, -1).map(one => [one.x2, one.y2]),
    [last.x2 - ux * back, last.y2 - uy * back]];
  const drawn = path(`M${points.map(([x, y]) => `${n(x)},${n(y)}`).join(' L')}`, `arrow ${cls}`);
  return headless ? [drawn] : [drawn, head(last.x2, last.y2, ux, uy, `fill ${cls}`)];
}
function drawMark({ kind, x, y, mailbox }) {
  switch (kind) {
    case 'new': return [diamond(x, y, `made ${colourOf(mailbox)}`)];
    case 'free': return [diamond(x, y, `fill ${colourOf(mailbox)}`), path(`M${n(x - 3)},${n(y - 3)} l6,6 m-6,0 l6,-6`, 'cross')];
    case 'send': return [`<circle cx="${n(x)}" cy="${n(y)}" r="3.2" class="fill ${colourOf(mailbox)}"/>`];
    case 'print': return [`<circle cx="${n(x)}" cy="${n(y)}" r="3.2" class="printed"/>`];
    case 'left': return [path(`M${n(x - 4)},${n(y - 4)} l8,8 m-8,0 l8,-8`, 'left')];
    case 'end': return [line(x - 9, y, x + 9, y, 'end')];
    default: return [];
  }
}
function drawLabel({ kind, text: said, box, mailbox }) {
  const y = (box.top + box.bottom) / 2 + 3.8, middle = (box.left + box.right) / 2;
  const rectangle = (cls, round) => `<rect x="${n(box.left)}" y="${n(box.top)}" width="${n(box.right - box.left)}" `
    + `height="${n(box.bottom - box.top)}" rx="${round}" class="${cls}"/>`;
  switch (kind) {
    case 'name': return [rectangle('box', 4), text(middle, y, said, 'name', 'middle')];
    case 'note': return [rectangle('paperbox', 1), text(box.left + 7, y, said, 'note')];
    case 'state': return [text(box.left, y, said, 'said state')];
    default: return [text(box.left, y, said, `said ${kind === 'wait' ? 'wait ' : ''}${mailbox ? colourOf(mailbox) : ''}`)];
  }
}
function drawWorkers({ rows, workers, left, top }) {
  const numbers = rows.map(({ entry, y }) => text(left - 8, y + 3.5, String(entry), 'no', 'end'));
  if (workers.length < 2) return numbers;
  const x = worker => 10 + workers.indexOf(worker) * 7;
  return [...numbers, ...workers.map(worker => text(x(worker), top - 5, String(worker), 'no', 'middle')),
    ...rows.map(({ worker, y }) => `<circle cx="${x(worker)}" cy="${n(y)}" r="2.6" class="worker"/>`)];
}
function drawHeading(run, { first, rows, workers }, title) {
  const by = workers.length > 1 ? `${workers.length} workers (the dots on the left)` : 'one worker';
  const ended = run.outcome ? `: ${sayOutcome(run.outcome)}` : '', isPart = first > 0 || rows.length < rowsOf(run);
  const part = isPart && rows.length ? `; entries ${rows[0].entry} to ${rows.at(-1).entry}` : '';
  return [text(14, 26, title, 'h'), text(14, 46, `${run.events.length} entries, ${by}${ended}${part}`, 'sub')];
}
function sayStuck(run, one, y) {
  const standing = sayStanding(one), said = run.outcome?.startsWith('waiting') ? standing.replace('waits', 'waits for ever') : standing;
  const state = one.state && !one.label.includes(one.state) ? ` (in ${one.state})` : '';
  return text(14, y, `${one.label}${state} ${said}`, 'stuck');
}

/** Rows of {draws, says}: what each sign means, in columns. */
const LEGEND_AT = [0, 162, 372, 552], LEGEND_WIDTH = 780;
const LEGEND = [
  [{ draws: y => line(22, y - 8, 22, y + 8, 'life'), says: 'a thread' },
    { draws: y => line(14, y, 40, y, 'arrow c0') + head(44, y, 1, 0, 'fill c0') + `<circle cx="14" cy="${y}" r="3.2" class="fill c0"/>`,
      says: 'a message: sent, received' },
    { draws: y => path(`M14,${y} L42,${y} M35,${y - 4} L42,${y} L35,${y + 4}`, 'spawn'), says: 'a thread is spawned' },
    { draws: y => line(14, y, 40, y, 'end'), says: 'a thread ends' }],
  [{ draws: y => diamond(24, y, 'made c0'), says: 'a mailbox is made' },
    { draws: y => diamond(24, y, 'fill c0') + path(`M21,${y - 3} l6,6 m-6,0 l6,-6`, 'cross'), says: 'it is freed' },
    { draws: y => line(22, y - 8, 22, y + 8, 'dotted'), says: 'waits at a guard' },
    { draws: y => path(`M20,${y - 4} l8,8 m-8,0 l8,-8`, 'left'), says: 'nobody receives it' }],
  [{ draws: y => `<rect x="12" y="${y - 7}" width="30" height="14" rx="2" class="paperbox"/>` + text(27, y + 4, '5', 'note', 'middle'),
    says: 'printed' },
  { draws: y => text(12, y + 4, 'name', 'state'), says: 'the function that it is in' },
  { draws: y => text(42, y + 4, '3', 'no', 'end'), says: 'entry of the history' },
  { draws: y => line(14, y - 3, 42, y - 3, 'arrow c0') + line(14, y + 3, 42, y + 3, 'arrow c1'), says: 'each mailbox has its own' }],
];
function drawLegend(entries, y) {
  return entries.map(({ draws, says }, index) =>
    `<g transform="translate(${LEGEND_AT[index]} 0)">${draws(y)}${text(52, y + 4, says, 'sub')}</g>`);
}
