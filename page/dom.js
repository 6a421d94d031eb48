// Small helpers for making elements.

export const byId = id => document.getElementById(id);

/** An element with attributes, listeners (`onclick` and the like) and children; an attribute that is null is left out. */
export function element(name, attributes = {}, ...children) {
  const made = document.createElement(name);
  for (const [key, value] of Object.entries(attributes)) {
    if (typeof value === 'function') made.addEventListener(key.slice(2), value);
    else if (value !== null) made.setAttribute(key, value);
  }
  made.append(...children);
  return made;
}
/** Text in which `..` stands for code. */
export const spelled = text => text.split('`').map((part, index) => index % 2 ? element('code', {}, part) : part);
export const withCapital = text => text.replace(/^\p{Ll}/u, one => one.toUpperCase());
export const note = (text, kind = 'note') => element('p', { class: kind }, ...spelled(text));

let hiding = null;
/** Says something for a moment. */
export function say(text) {
  const box = byId('said');
  box.textContent = text;
  box.classList.add('on');
  clearTimeout(hiding);
  hiding = setTimeout(() => box.classList.remove('on'), 2500);
}
