// Takes the picture that the README shows, of the first example at a step of its run: PAGE=FILE node page/test/picture.js OUT.png
// PAGE is the page's file as an absolute path, CHROMIUM the browser.

import { writeFileSync } from 'node:fs';
import { Browser } from './browser.js';

const { PAGE, CHROMIUM = 'chromium' } = process.env, [, , out] = process.argv;
const WIDTH = 1280, HEIGHT = 800, STEP = 7, ANSWER_MS = 60_000;

if (!PAGE || !out) {
  console.error('usage: PAGE=FILE node page/test/picture.js OUT.png');
  process.exit(2);
}
const browser = new Browser(CHROMIUM), page = await browser.page();
try {
  await page.size(WIDTH, HEIGHT);
  await page.media({ 'prefers-color-scheme': 'light' });
  await page.open(`file://${PAGE}`);
  await page.until(() => document.documentElement.dataset.ready ?? '', ANSWER_MS);
  await page.value(step => pat.runPanel.go(step), STEP);
  writeFileSync(out, await page.shot());
} finally { await browser.close(); }
