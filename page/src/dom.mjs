// Elements of the page. Text becomes text nodes and nothing else, so that what a disk calls its files can never become markup; the
// page's policy forbids the browser the other ways too.

export const byId = (id) => document.getElementById(id);

// An element with attributes, what it does on events, and children: elements or text.
export function make(tag, given = {}, ...children) {
  const element = document.createElement(tag);
  for (const [name, value] of Object.entries(given)) {
    if (name === 'on') Object.entries(value).forEach(([event, act]) => element.addEventListener(event, act));
    else if (value === true) element.setAttribute(name, '');
    else if (value !== false && value !== null && value !== undefined) element.setAttribute(name, String(value));
  }
  element.append(...children.filter((child) => child !== null));
  return element;
}

// A button. Its key says which one it is when the page is drawn anew.
export const button = (text, act, given = {}) => make('button', { type: 'button', 'data-key': text, ...given, on: { click: act } }, text);

// Draws, and gives the focus back to what had it: who works by keyboard stays where they were. Where that is gone, the nearest
// heading that is there gets it.
export function keepingFocus(draw, ...headings) {
  const key = document.activeElement?.dataset?.key;
  draw();
  if (key === undefined) return;
  const isSeen = (each) => each.offsetParent !== null;
  const again = [...document.querySelectorAll('[data-key]')].find((each) => each.dataset.key === key && !each.disabled && isSeen(each));
  (again ?? headings.map(byId).find(isSeen))?.focus();
}
