// One text for the page and for its worker.

import { answerer } from './answers.js';
import { start } from './page.js';

/** In the worker: the first message brings the module, each other one is a request. */
export function serve() {
  let answer = null, last = Promise.resolve();
  onmessage = ({ data }) => {
    if (data.bytes) { answer = answerer(data.bytes); return; }
    last = last.then(async () => postMessage(await answer(data)));
  };
}
export function open() {
  const { textContent: data } = document.getElementById('data'), { textContent: program } = document.getElementById('program');
  start(JSON.parse(data), program);
}
