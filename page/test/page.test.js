// Drives the page in Chromium: what it says is what the native program says, typing never waits, and what a browser lacks is told.
// PAT names the program, PAGE the page's file, CHROMIUM the browser. Each wait is bounded.

import { spawnSync } from 'node:child_process';
import { readFileSync, readdirSync } from 'node:fs';
import { cpus, loadavg } from 'node:os';
import { after, before, test } from 'node:test';
import assert from 'node:assert/strict';
import { deflateRawSync } from 'node:zlib';
import { Browser } from './browser.js';

const { PAT, PAGE, CHROMIUM, EXAMPLES } = process.env, ADDRESS = `file://${PAGE}`;
// Bounds for a machine that is busy; where it isn't, all of it takes some twenty seconds.
const ANSWER_MS = 60_000, TEST_MS = 150_000;
// Typing is said not to wait where no two ticks are further apart than this; beside other work that much longer.
const TICK_MS = 16, LONGEST_TICK_MS = 500, load = () => Math.max(1, loadavg()[0] / cpus().length);
const MEBIBYTE = 1 << 20;

let browser, page;
before(async () => { browser = new Browser(CHROMIUM); page = await opened(); }, { timeout: TEST_MS });
after(() => browser.close(), { timeout: TEST_MS });
const trying = (name, body) => test(name, { timeout: TEST_MS }, body);

function native(words, input) {
  const { status, stdout } = spawnSync(PAT, words, { input, maxBuffer: 1 << 30 });
  return { status, text: stdout.toString('utf8'), line: stdout.toString('utf8').split('\n', 1)[0] };
}
/** The programs of a folder, each [name, text]. */
const programs = folder => readdirSync(folder).filter(file => file.endsWith('.pat')).sort()
  .map(file => [file.slice(0, -4), readFileSync(`${folder}/${file}`, 'utf8')]);

// Functions that run in the page

const isReady = () => document.documentElement.dataset.ready ?? '';
const changeText = text => { delete document.documentElement.dataset.ready; pat.editor.text = text; };
/** Puts texts into the editor one after another, without waiting for a pause, and gives the verdicts' first lines. */
const lookAt = async texts => {
  const found = [];
  for (const text of texts) {
    pat.editor.text = text;
    clearTimeout(pat.timer);
    await pat.look();
    const parts = [...document.querySelector('#verdict .line').childNodes].filter(one => !one.className);
    found.push(parts.map(one => one.textContent).join(''));
  }
  return found;
};
const verdict = () => document.querySelector('#verdict .line').firstChild.textContent;

async function opened(prepare = () => {}) {
  const made = await browser.page();
  await made.size(1000, 700);
  await prepare(made);
  await made.open(ADDRESS);
  await made.until(isReady, ANSWER_MS);
  return made;
}
/** The first line of the verdict of a text. */
const verdictOf = async (text, on = page) => (await on.value(lookAt, [text]))[0];

trying('each example has the native program\'s verdict, and each accepted one its run', async () => {
  const accepted = programs(EXAMPLES), all = [...accepted, ...programs(`${EXAMPLES}/wrong`)];
  const found = await page.value(async texts => {
    const answers = [];
    for (const text of texts) {
      const { accepted: isAccepted, line, status } = await pat.ask('check', { text });
      answers.push({ line, status, history: isAccepted ? (await pat.ask('run', { text, steps: 10000 })).history : null });
    }
    return answers;
  }, all.map(([, text]) => text));
  all.forEach(([name, text], index) => {
    const { status, line } = native(['check'], text), isAccepted = index < accepted.length;
    const history = isAccepted ? native(['run', '--workers', '1', '--steps', '10000'], text).text : null;
    assert.deepEqual(found[index], { line, status, history }, name);
  });
});
trying('the verdict is shown, with an explanation where there is one', async () => {
  for (const name of ['wrong/filled_twice', 'wrong/kept_forks', 'future']) {
    const text = readFileSync(`${EXAMPLES}/${name}.pat`, 'utf8');
    assert.equal(await verdictOf(text), native(['check'], text).line);
    assert.equal(await page.value(() => document.querySelectorAll('#verdict .where').length > 1), name.startsWith('wrong'));
    assert.equal(await page.value(() => document.querySelectorAll('.drawing svg').length), name.startsWith('wrong') ? 0 : 1);
  }
});
trying('all examples are in the list', async () => {
  const groups = { Accepted: Object.fromEntries(programs(EXAMPLES)), Refused: Object.fromEntries(programs(`${EXAMPLES}/wrong`)) };
  assert.deepEqual(await page.value(() => pat.data.examples), groups);
});
trying('an explanation marks places of the text, characters of several bytes among them', async () => {
  const text = '// é, 𝒳 and 漢\ndef main(): Unit { print("漢𝒳"); print(ñ) }\n';
  assert.equal(await verdictOf(text), native(['check'], text).line);
  const marked = await page.value(() => {
    const { editor } = pat.editor;
    return editor.getAllMarks().map(mark => editor.getRange(mark.find().from, mark.find().to));
  });
  assert.deepEqual(marked, ['ñ']);
  assert.ok(await page.value(() => document.querySelectorAll('#verdict .where').length) > 0);
});

trying('one steps to and fro, and the chart\'s row and the program\'s line light up', async () => {
  const [, text] = programs(EXAMPLES).find(([name]) => name === 'future');
  await verdictOf(text);
  const found = await page.value(async () => {
    const seen = [], all = selector => [...document.querySelectorAll(selector)];
    for (let taken = pat.run.count; taken >= 0; taken--) {
      await pat.runPanel.go(taken);
      seen.unshift({
        chart: all('.drawing .row.is-lit').map(one => one.dataset.entry), trace: all('.trace .is-lit i').map(one => one.textContent),
        lit: pat.editor.editor.getAllMarks().filter(mark => mark.className === 'lit').length,
        output: document.querySelector('.out').textContent,
      });
    }
    return seen;
  });
  assert.deepEqual([found[0].chart, found[0].trace, found[0].lit], [[], [], 0]);
  for (const { chart, trace, lit } of found.slice(1)) {
    assert.equal(trace.length, 1);
    assert.deepEqual(chart, trace);
    assert.ok(lit <= 1);
  }
  assert.ok(found.filter(({ lit }) => lit === 1).length > found.length / 2);
  const printed = native(['run', '--workers', '1'], text).text.split('\n').filter(line => line.startsWith('out '));
  assert.equal(found.at(-1).output, printed.map(line => line.slice(4)).join('\n'));
});
trying('a long history is shown in windows', async () => {
  await verdictOf('def f(n: Int): Unit { if n == 0 { print("end") } else { print(n); f(n - 1) } }\ndef main(): Unit { f(700) }\n');
  const found = await page.value(async () => {
    const seen = [];
    for (const to of [1, 150, 151, 400, 702, 3]) {
      await pat.runPanel.go(to);
      seen.push(document.querySelector('.trace .is-lit span').textContent);
    }
    return seen;
  });
  assert.deepEqual(found, ['prints 700', 'prints 551', 'prints 550', 'prints 301', 'ends', 'prints 698']);
});

trying('a derivation and a history are judged as they are edited', async () => {
  const [, text] = programs(EXAMPLES).find(([name]) => name === 'future');
  await verdictOf(text);
  const judged = async (tab, from, to) => {
    await page.value(async name => { await pat.open(name); }, tab);
    const evidence = await page.value((name, one, other) => {
      const area = document.querySelector(`#${name} textarea`);
      area.value = area.value.replace(one, other);
      return area.value;
    }, tab, from, to);
    const said = await page.value(async name => {
      await pat[name].look();
      return [...document.querySelectorAll(`#${name} .judged > .line`)].map(line => line.textContent).join('\n');
    }, tab);
    assert.equal(said, native([tab === 'derivation' ? 'verify' : 'replay'], text + evidence).text.trimEnd(), `${from} ${to}`);
    return said;
  };
  assert.equal(await judged('derivation', '', ''), 'accepted');
  assert.match(await judged('derivation', 'Put.*Get ret', 'Put ret'), /^rejected at node/);
  assert.match(await judged('derivation', '%%derivation', '%%derivations'), /^bad text at/);
  assert.match(await judged('history', '', ''), /^out 5\ndone/);
  assert.match(await judged('history', ' end', ' free'), /^refused at entry/);
  await page.value(() => pat.open('run'));
});
trying('what the usage line names is offered', async () => {
  const words = /^usage: pat (\S+)/.exec(native(['help'], '').text)[1].split('|');
  assert.deepEqual(await page.value(() => pat.words), words);
  assert.equal(await page.value(() => /Order/.test(pat.history.actions.textContent)), words.includes('order'));
});

trying('the deepest programs, and one step beyond, are answered as natively', async () => {
  const statements = count => `def main(): Unit { ${'(); '.repeat(count)}() }\n`;
  const braces = count => `def main(): Unit { ${'{ '.repeat(count)}()${' }'.repeat(count)} }\n`;
  const texts = [...[4094, 4095, 4096].map(statements), ...[253, 254].map(braces)];
  const lines = texts.map(text => native(['check'], text).line);
  assert.deepEqual(await page.value(lookAt, texts), lines);
  assert.deepEqual([lines[1], lines[3]], ['accepted', 'accepted']);
});

trying('typing 200 keys at speed keeps the page alive, and the last text is answered', async () => {
  await verdictOf('');
  await page.value(period => {
    pat.editor.editor.focus();
    window.longest = 0;
    let last = performance.now();
    window.ticking = setInterval(() => {
      const now = performance.now();
      window.longest = Math.max(window.longest, now - last);
      last = now;
    }, period);
  }, TICK_MS);
  const typed = 'def main(): Unit { let x = 1 in print(x + 2) } // '.repeat(4).slice(0, 200);
  for (const key of typed) await page.send('Input.insertText', { text: key });
  await page.until(text => pat.editor.text === text && document.documentElement.dataset.ready && pat.text === text, ANSWER_MS, typed);
  assert.equal(await page.value(verdict), native(['check'], typed).line);
  const longest = await page.value(() => { clearInterval(window.ticking); return window.longest; });
  assert.ok(longest < LONGEST_TICK_MS * load(), `a tick took ${longest} ms, at a load of ${load()} for each processor`);
});
trying('a text of 1 MiB is answered, and one byte more is too long', async () => {
  const line = 'def f$(x: Int): Unit { let y = x + $ in print(y * 2) }\n', lines = ['def main(): Unit { f0(1) }\n'];
  let size = lines[0].length;
  for (let number = 0; ; number++) {
    const next = line.replaceAll('$', String(number));
    if (size + next.length > MEBIBYTE) break;
    lines.push(next);
    size += next.length;
  }
  const text = lines.join('') + ' '.repeat(MEBIBYTE - size);
  assert.equal(await verdictOf(text), 'accepted');
  assert.equal(await verdictOf(text + ' '), 'too long');
});
trying('a look that takes long can be stopped, and the next text is answered', async () => {
  const threads = 2500, text = 'interface I { m() }\ndef f(a: I!m): Unit { a ! m() }\n'
    + 'def g(a: I?): Unit { guard a : *m { free -> () receive m() from a -> g(a) } }\n'
    + `def main(): Unit { let a = new[I] in ${'spawn { f(a) }; '.repeat(threads)}g(a) }\n`;
  await page.value(changeText, text);
  await page.until(() => !document.getElementById('busy').hidden, ANSWER_MS);
  await page.value(() => document.getElementById('stop').click());
  assert.match(await page.until(() => /Stopped/.exec(document.getElementById('verdict').textContent)?.[0], ANSWER_MS), /Stopped/);
  assert.equal(await verdictOf('def main(): Unit { () }\n'), 'accepted');
});

/** A link's text of some kilobytes, which unpacks to more than a program may have. */
const tooLarge = () => deflateRawSync(Buffer.alloc(8 * MEBIBYTE)).toString('base64url');
trying('a link holds the program, and one that holds none is told', async () => {
  const text = '// é 漢\ndef main(): Unit { print("linked") }\n';
  await verdictOf(text);
  await page.value(() => document.getElementById('share').click());
  const address = await page.until(() => location.hash && location.href, ANSWER_MS);
  const other = await browser.page();
  await other.open(address);
  await other.until(isReady, ANSWER_MS);
  assert.equal(await other.value(() => pat.editor.text), text);
  await other.value(() => { location.hash = 'p=nonsense'; });
  await other.until(() => /no program/.test(document.getElementById('said').textContent), ANSWER_MS);
  await other.value(packed => { document.getElementById('said').textContent = ''; location.hash = `p=${packed}`; }, tooLarge());
  await other.until(() => /no program/.test(document.getElementById('said').textContent), ANSWER_MS);
  assert.equal(await other.value(() => pat.editor.text), text);
  await page.value(() => history.replaceState(null, '', location.pathname));
});
trying('the keyboard alone leads through the page', async () => {
  await page.value(() => { pat.open('run'); pat.editor.editor.focus(); });
  const focused = () => page.value(() => {
    const { activeElement: one } = document;
    return one.closest('.CodeMirror') ? 'editor' : one.id || one.getAttribute('aria-label') || one.tagName;
  });
  await page.key('Tab', { keyCode: 9 });
  assert.equal(await focused(), 'editor');
  await page.key('Escape', { keyCode: 27 });
  await page.key('Tab', { keyCode: 9 });
  assert.notEqual(await focused(), 'editor');
  await page.value(() => document.getElementById('tab-run').focus());
  await page.key('ArrowRight', { keyCode: 39 });
  assert.equal(await focused(), 'tab-types');
  assert.equal(await page.value(() => document.getElementById('types').hidden), false);
  await page.value(() => pat.open('run'));
});
trying('each control has a name', async () => {
  const nameless = await page.value(() => {
    const controls = [...document.querySelectorAll('button, select, input, textarea, [role=tabpanel], [role=listbox]')];
    const says = (one, name) => Boolean(one.getAttribute(name));
    const isNamed = one => one.closest('.CodeMirror') || one.textContent.trim() || says(one, 'aria-label') || says(one, 'aria-labelledby');
    return controls.filter(one => !isNamed(one)).map(one => one.outerHTML.slice(0, 80));
  });
  assert.deepEqual(nameless, []);
});
trying('a telephone\'s width is enough', async () => {
  await page.size(390, 844);
  assert.ok(await page.value(() => document.scrollingElement.scrollWidth <= 390), 'something is wider than the window');
  await page.size(1000, 700);
});

trying('a browser without workers is told so, and answers', async () => {
  const alone = await opened(made => made.before('delete window.Worker'));
  assert.match(await alone.value(() => document.getElementById('made').textContent), /no worker/);
  const text = 'def main(): Unit { print(x) }\n';
  assert.equal(await verdictOf(text, alone), native(['check'], text).line);
});
trying('a browser without 64-bit memories is told so, and lays out', async () => {
  const old = await browser.page();
  await old.before('WebAssembly.validate = () => false');
  await old.open(ADDRESS);
  assert.match(await old.until(() => /can't run pat/.exec(document.getElementById('verdict').textContent)?.[0], ANSWER_MS), /can't/);
  await old.value(async () => { pat.editor.text = 'def main():Unit{print( 1 )}'; await pat.format(); });
  assert.equal((await old.value(() => pat.editor.text)).trim(), 'def main(): Unit { print(1) }');
});
trying('the page says of which commit it is, shows the editor\'s licence, and lets nothing in', async () => {
  assert.match(await page.value(() => document.getElementById('made').textContent), /^pat of (commit [0-9a-f]{8}|a folder)/);
  assert.match(await page.value(() => document.getElementById('about').textContent), /Permission is hereby granted, free of charge/);
  const policy = await page.value(() => document.querySelector('meta[http-equiv=Content-Security-Policy]').content);
  assert.match(policy, /^default-src 'none'; script-src 'sha256-/);
  const blocked = await page.value(async () => { try { await fetch('data:text/plain,x'); return false; } catch { return true; } });
  assert.ok(blocked);
});
trying('what a program prints and names is text, and never a part of the page', async () => {
  const text = 'def main(): Unit { let x = "<img src=x onerror=alert(1)><style>*{display:none}</style>" in print(x) }\n';
  assert.equal(await verdictOf(text), 'accepted');
  await page.value(() => pat.runPanel.go(1));
  assert.equal(await page.value(() => document.querySelectorAll('#answers img, #answers style style, main img').length), 0);
  assert.match(await page.value(() => document.querySelector('.drawing').textContent), /<img src=x/);
});
trying('no error was seen in the console', async () => {
  assert.deepEqual(page.problems.filter(text => !/Content Security Policy/.test(text)), []);
});
