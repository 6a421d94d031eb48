// What is beside the editor and the answers: the list of examples, the tabs, links, light and dark.

import { byId, element, say } from './dom.js';
import { MOST_CHARACTERS, pack, unpack } from './link.js';

/** Lists the examples, each under its group's name and its own; `choose(group, name)` is called with the one that is chosen. */
export function listExamples(examples, choose) {
  const list = byId('examples'), option = (group, name) => element('option', { value: `${group}/${name}` }, name.replace(/_/g, ' '));
  list.append(element('option', { value: '', hidden: '' }, 'your own'));
  for (const [group, programs] of Object.entries(examples)) {
    list.append(element('optgroup', { label: group }, ...Object.keys(programs).map(name => option(group, name))));
  }
  list.addEventListener('change', () => choose(list.value));
}
export const nameChosen = value => { byId('examples').value = value; };

const tabs = () => [...document.querySelectorAll('[role=tab]')];
const panelOf = tab => tab.getAttribute('aria-controls');

export function showTab(name) {
  for (const tab of tabs()) {
    const isChosen = panelOf(tab) === name;
    tab.setAttribute('aria-selected', String(isChosen));
    tab.tabIndex = isChosen ? 0 : -1;
    byId(panelOf(tab)).hidden = !isChosen;
  }
}
/** Tabs by mouse and by arrow keys; `open(name)` is called with the panel that is asked for. */
export function listenToTabs(open) {
  const all = tabs();
  all.forEach((tab, index) => {
    tab.addEventListener('click', () => open(panelOf(tab)));
    tab.addEventListener('keydown', ({ key }) => {
      const step = { ArrowRight: 1, ArrowLeft: -1 }[key];
      if (!step) return;
      const next = all[(index + step + all.length) % all.length];
      next.focus();
      open(panelOf(next));
    });
  });
}
export function turnTheme() {
  const { dataset } = document.documentElement;
  const isDark = dataset.theme ? dataset.theme === 'dark' : matchMedia('(prefers-color-scheme: dark)').matches;
  dataset.theme = isDark ? 'light' : 'dark';
}

let shared = null;
/** Puts a program into the address, and the address on the clipboard where the browser lets it. */
export async function share(text) {
  const fragment = await pack(text);
  if (fragment.length > MOST_CHARACTERS) { say('This program is too long for a link.'); return; }
  shared = fragment;
  location.hash = fragment;
  try {
    await navigator.clipboard.writeText(location.href);
    say('The link with this program is copied.');
  } catch { say('The address now holds this program.'); }
}
/** The program of the address; null where it holds none, or the one that was shared here. */
export async function programOfAddress() {
  if (!location.hash || location.hash === shared) return null;
  const text = await unpack(location.hash);
  if (text === null) say('The address holds no program.');
  return text;
}
export function clearAddress() { if (location.hash) history.replaceState(null, '', location.pathname + location.search); }
