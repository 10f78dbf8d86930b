// The shelf: the images that were opened, each with its verdict.
import { closeView } from './bytes.mjs';
import { button, byId, make } from './dom.mjs';
import { draw } from './draw.mjs';
import { counted } from './format.mjs';
import { Item, bytesOfFile } from './item.mjs';
import { drawReport } from './report.mjs';
import { attempt, refusedWords, say } from './status.mjs';
import { state } from './state.mjs';

const wordsFor = ({ disk, refusal }) =>
  (disk ? `accepted, ${counted(disk.listing.entries.length, 'file')}` : refusedWords(refusal).replace(/^R/, 'r'));

function showItem(item) {
  Object.assign(state, { item, slot: null, hover: null, sector: 0, ticked: new Set() });
  closeView();
  draw();
}

function removeItem(item) {
  if (item.changed && !window.confirm(`${item.label} is changed, and not downloaded yet. Take it off the shelf?`)) return;
  item.close();
  state.items = state.items.filter((other) => other !== item);
  if (state.item === item) showItem(state.items[0] ?? null);
  else draw();
  say(`${item.label} is off the shelf`);
}

function chooseItem(item) {
  showItem(item);
  byId('title').focus();
}

export function drawItems() {
  byId('open-images').hidden = state.items.length === 0;
  byId('report').hidden = true; // it would tell of disks as they were
  byId('items').replaceChildren(...state.items.map((item, i) => make('li', {},
    button(item.label, () => chooseItem(item), { 'data-key': `item ${i}`, 'aria-current': String(item === state.item) }),
    make('span', { class: item.disk ? null : 'refused' }, wordsFor(item)),
    item.changed ? make('span', { class: 'unsaved' }, 'not downloaded yet') : null,
    button('Take off', () => removeItem(item), { 'data-key': `off ${i}`, 'aria-label': `Take ${item.label} off the shelf` }))));
}

// Opens files, or handles of files that can be saved back. The first of them is shown.
export async function openAll(sources) {
  if (sources.length === 0) return say('That was no file');
  const opened = [];
  const failed = [];
  for (const { file, handle } of sources) {
    try {
      opened.push(new Item(state.library, file.name, await bytesOfFile(file), handle));
    } catch (error) {
      failed.push(`${file.name} cannot be read: ${error.message}`);
    }
  }
  state.items.push(...opened);
  if (opened.length > 0) showItem(opened[0]);
  const refused = opened.filter(({ disk }) => !disk);
  const one = opened.length === 1;
  const summary = one ? `${opened[0].label}: ${wordsFor(opened[0])}` : `${counted(opened.length, 'image')} opened, ${refused.length} refused`;
  return say([summary, ...failed].join('. '), failed.length > 0 || (one && refused.length === 1));
}

export const report = () => attempt(() => {
  drawReport();
  say(byId('report-status').textContent);
});

export const unsavedItems = () => state.items.filter((item) => item.changed);
