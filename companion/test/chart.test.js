// The charts: no label lies on another one, on an arrow or on a mark; rows, columns and pages are those of the run.
import { test } from 'node:test';
import assert from 'node:assert/strict';
import { chart, chartPages, STYLE } from '../chart.js';
import { layOut, rowsOf } from '../chart_layout.js';
import { meet, segmentMeets } from '../labels.js';
import { programs } from './programs.js';
import { masterAndWorkers, philosophers, runOf } from './made.js';

const examples = programs.filter(({ name, verdict }) => name.startsWith('examples') && verdict === 'accepted');
const PAGE = 60, PAGES = 4;

function assertReadable(run, { from = 0, most = PAGE } = {}, name = '') {
  const placed = layOut(run, { from, most }), labels = [...placed.heads, ...placed.labels];
  const segments = [...placed.arrows, ...placed.spawns].flatMap(arrow => arrow.segments);
  labels.forEach((label, index) => {
    const said = `${name}: ${label.text}`;
    for (const other of labels.slice(0, index)) assert.ok(!meet(label.box, other.box), `${said} lies on ${other.text}`);
    for (const segment of segments) assert.ok(!segmentMeets(segment, label.box), `${said} lies on an arrow`);
    for (const mark of placed.marks) assert.ok(!meet(label.box, mark.box), `${said} lies on a mark`);
    assert.ok(label.box.left >= 0 && label.box.right <= placed.width && label.box.bottom <= placed.height + 1, `${said} is outside`);
  });
  return placed;
}
const assertPages = (run, name) => {
  for (let from = 0; from < Math.min(PAGES * PAGE, Math.max(1, rowsOf(run))); from += PAGE) assertReadable(run, { from }, name);
  assert.doesNotMatch(chart(run, { most: PAGE }), /undefined|NaN|Infinity|\[object/, name);
};

test('the test itself sees what lies on something else', () => {
  const box = { left: 0, right: 10, top: 0, bottom: 10 };
  assert.ok(meet(box, { left: 9, right: 20, top: 9, bottom: 20 }));
  assert.ok(!meet(box, { left: 10, right: 20, top: 0, bottom: 10 }));
  assert.ok(segmentMeets({ x1: -5, y1: 5, x2: 15, y2: 6 }, box));
  assert.ok(!segmentMeets({ x1: -5, y1: 5, x2: 5, y2: 16 }, box));
});

test('labels have room on the charts of all examples, by one worker and by four', () => {
  for (const { name, bytes } of examples) for (const workers of ['1', '4']) {
    assertPages(runOf(bytes, ['--workers', workers, '--steps', '1000']), name);
  }
});

test('labels have room with 4 threads and with 40, with 20 entries and with 400', () => {
  for (const [workers, rounds] of [[1, 1], [3, 1], [3, 25], [39, 1], [39, 2]]) {
    assertPages(runOf(masterAndWorkers(workers, rounds), ['--workers', '3']), `${workers} workers, ${rounds} rounds`);
  }
});

test('who waits for ever is dotted to the end, with the pattern, and is said below', () => {
  const run = runOf(philosophers(2)), all = chart(run);
  if (!run.outcome.startsWith('waiting')) return;
  const placed = assertReadable(run, { most: Infinity });
  assert.equal(placed.waits.filter(wait => wait.ever).length, run.threads.length);
  assert.equal((all.match(/class="stuck"/g) ?? []).length, run.threads.length);
});

test('a column is used again once its thread has ended', () => {
  const one = 'spawn { print(1) }; let m = new[M] in spawn { m ! A() }; guard m : A { receive A() from m -> free(m) }';
  const text = `interface M { A() }\ndef main(): Unit { ${[...Array(12)].fill(one).join('; ')} }\n`, run = runOf(text);
  const placed = assertReadable(run, { most: Infinity }), columns = new Set(placed.lifelines.map(lifeline => lifeline.x));
  assert.equal(placed.lifelines.length, 25);
  assert.ok(columns.size < 8, `${columns.size} columns`);
});

test('each row is there once, with its entry; a window shows its own', () => {
  const run = runOf(masterAndWorkers(3, 5)), rows = rowsOf(run), entries = text => [...text.matchAll(/data-entry="(\d+)"/g)].map(found => found[1]);
  const shared = run.events.filter(event => event.act !== '-').map(event => String(event.entry));
  assert.deepEqual(entries(chart(run, { title: null })), shared);
  assert.deepEqual(entries(chart(run, { title: null, from: 10, most: 7 })), shared.slice(10, 17));
  assert.deepEqual(chartPages(run, { most: 20, name: 'a/b.c.svg' }).flatMap(page => entries(page.text)), shared);
  assert.equal(chartPages(run, { most: 20, name: 'a/b.c.svg' })[1].name, 'a/b.c-2.svg');
  assert.equal(chartPages(run, { most: rows, name: 'x.svg' }).length, 1);
  const few = Math.floor(rows / 6), fewer = chartPages(run, { most: rows - few });
  assert.deepEqual(fewer.flatMap(page => entries(page.text)), shared, 'a page of few rows');
  assert.equal(fewer.length, 1);
});

test('a picture on paper has no variables, and a page\'s has them', () => {
  const run = runOf(masterAndWorkers(2, 1));
  assert.doesNotMatch(chart(run), /var\(/);
  assert.ok(chart(run, { paper: false }).includes(STYLE));
});
