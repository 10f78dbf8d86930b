// The chosen file: what it is, and all that can be done with it.
import { kindWords } from '../../js/varnucht.js';
import { button, byId } from './dom.mjs';
import { counted, grouped } from './format.mjs';
import { lengthOf, marksOf, startOf } from './list.mjs';
import { chosenEntry, state } from './state.mjs';

function wordsOf(entry) {
  const [length, start] = [lengthOf(entry), startOf(entry)];
  const parts = [
    `slot ${entry.slot}`, kindWords(entry.kind), marksOf(entry), counted(entry.sectorCount, 'sector'),
    entry.sectorCount > 0 && state.item.disk.isScattered(entry.name) ? 'scattered' : '',
    length === null ? '' : counted(length, 'byte'),
    start === null ? '' : `start ${grouped(start)}${entry.start ? ` (page ${entry.start.page}, offset ${entry.start.offset})` : ''}`,
  ];
  return parts.filter((part) => part !== '').join(', ');
}

export function drawFile(act) {
  const entry = chosenEntry();
  byId('file').hidden = entry === null;
  if (entry === null) return;
  byId('file-title').textContent = String(entry.name);
  byId('file-status').textContent = wordsOf(entry);
  const all = [
    ['Get', () => act.get(entry)],
    ['Hex', () => act.view(entry, false)],
    ['Text', () => act.view(entry, true)],
    entry.hidden ? ['Show', () => act.mark(entry, 'show')] : ['Hide', () => act.mark(entry, 'hide')],
    entry.protected ? ['Release', () => act.mark(entry, 'release')] : ['Protect', () => act.mark(entry, 'protect')],
    ['Gather', () => act.gather(entry)],
    ['Erase', () => act.erase(entry)],
  ];
  // Hide and Show are one button to the focus.
  const key = { Show: 'Hide', Release: 'Protect' };
  byId('file-tools').replaceChildren(...all.map(([text, run]) => button(text, run, { 'data-key': `file ${key[text] ?? text}` })));
}
