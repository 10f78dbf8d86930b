// Draws all that the page shows from its state.
import { act } from './actions.mjs';
import { Directory, sectorOf, trackOf } from '../../js/varnucht.js';
import { button, byId, keepingFocus } from './dom.mjs';
import { drawFile } from './file.mjs';
import { counted, grouped } from './format.mjs';
import { drawList } from './list.mjs';
import { drawMap } from './map.mjs';
import { refusedWords } from './status.mjs';
import { drawItems } from './items.mjs';
import { chosenEntry, entries, state } from './state.mjs';
import { drawTree } from './tree.mjs';

function verdict({ disk }) {
  const { listing, directory } = disk;
  const room = listing.room === null ? 'no room for a file' : `room for a file of ${counted(listing.room, 'byte')}`;
  return [
    'Accepted.',
    disk.name === null ? '' : ` The disk's name is ${disk.name}.`,
    ` ${counted(listing.entries.length, 'file')}, ${counted(listing.free, 'sector')} free: ${room}.`,
    ` ${directory.tracks} directory tracks: ${grouped(directory.slots)} slots, ${grouped(listing.freeSlots)} free.`,
  ].join('');
}

function drawDisk() {
  const { item } = state;
  byId('title').textContent = item.label;
  byId('verdict').textContent = item.disk ? verdict(item) : `${refusedWords(item.refusal)}. Its sectors can be looked at as they are.`;
  byId('verdict').classList.toggle('refused', !item.disk);
  byId('unsaved').hidden = !item.changed;
  byId('unsaved').textContent = item.changed ? 'Changed, and not downloaded yet.' : '';
  byId('tools').replaceChildren(...(item.disk ? diskTools(item) : refusedTools(item)));
}

// Undo and Redo say what they undo.
const backButton = (word, what, run) =>
  button(what === null ? word : `${word} ${what}`, run, { 'data-key': word.toLowerCase(), disabled: what === null });

const diskTools = (item) => [
  backButton('Undo', item.history.last, act.undo),
  backButton('Redo', item.history.next, act.redo),
  button('Download the disk', act.downloadDisk),
  item.handle ? button('Save back', act.writeBack, { disabled: !item.ahead }) : null,
  button('Get all files', act.getEach, { disabled: entries().length === 0 }),
  button('Gather all', act.gatherAll, { disabled: entries().length === 0 }),
  button('Check for release', act.checkRelease),
].filter((each) => each !== null);

// Where the library names a slot, the sector that the slot lies in is what one wants to see.
function refusedTools({ refusal }) {
  if (refusal.slot === null) return [];
  const number = Directory.sectorOfSlot(refusal.slot);
  const text = `Show slot ${refusal.slot}: track ${trackOf(number)}, sector ${sectorOf(number)}`;
  return [button(text, () => act.chooseSector(number), { 'data-key': 'slot' })];
}

const TITLE = document.title;

function drawSections() {
  drawItems();
  const { item } = state;
  document.title = item === null ? TITLE : [item.changed ? '* ' : '', item.label, ' - Varnucht'].join('');
  for (const id of ['disk', 'sectors']) byId(id).hidden = item === null;
  for (const id of ['files', 'save']) byId(id).hidden = !item?.disk;
  if (chosenEntry() === null) state.slot = null;
  const live = new Set(entries().map(({ slot }) => slot));
  state.ticked.forEach((slot) => { if (!live.has(slot)) state.ticked.delete(slot); });
  drawFile(act);
  if (item === null) return;
  drawDisk();
  drawMap();
  if (!item.disk) return;
  drawList(act);
  drawTree(act.choose);
}

export const draw = () => keepingFocus(drawSections, 'file-title', 'title');
