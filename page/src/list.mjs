// The listing: a table that can be sorted, with a box to tick for each file.
import { isSpectrum, kindWords } from '../../js/varnucht.js';
import { button, byId, make } from './dom.mjs';
import { counted, grouped } from './format.mjs';
import { colourOf, pointAt } from './map.mjs';
import { entries, state, tickedEntries } from './state.mjs';

export const marksOf = (entry) => [entry.hidden && 'hidden', entry.protected && 'protected'].filter(Boolean).join(', ');

// What the library tells of a file, or null where it refuses to. Only the Spectrum's kinds have it in the file and not in the listing.
function asked(entry, call) {
  if (!isSpectrum(entry.kind)) return null;
  try {
    return state.item.disk[call](entry.name);
  } catch {
    return null;
  }
}

export const lengthOf = (entry) => entry.length ?? asked(entry, 'length');
export const startOf = (entry) => entry.start?.address ?? asked(entry, 'start');

const inWhich = (entry) => {
  const around = state.item.disk.listing.within(entry);
  if (around === null) return '';
  return around === undefined ? `code ${entry.parentCode}` : String(around.name);
};

const shown = (number) => (number === null ? '' : grouped(number));

// What a column shows and what it is sorted by.
const COLUMNS = [
  { key: 'slot', of: (entry) => entry.slot },
  { key: 'name', text: true, of: (entry) => String(entry.name) },
  { key: 'marks', text: true, of: marksOf },
  { key: 'kind', text: true, of: (entry) => kindWords(entry.kind) },
  { key: 'sectors', of: (entry) => entry.sectorCount },
  { key: 'length', of: lengthOf },
  { key: 'start', of: startOf },
];
const DIRECTORY_COLUMN = { key: 'in', text: true, of: inWhich };

const columns = () => (entries().some((entry) => entry.isDirectory || entry.parentCode !== 0) ? [...COLUMNS, DIRECTORY_COLUMN] : COLUMNS);

function sorted(shownColumns) {
  const { by, down } = state.sort;
  const { of } = shownColumns.find(({ key }) => key === by) ?? COLUMNS[0];
  const rank = (one, two) => (one < two ? -1 : one > two ? 1 : 0);
  const keyed = entries().map((entry) => ({ entry, value: of(entry) ?? -1 }));
  keyed.sort((one, two) => (down ? -1 : 1) * rank(one.value, two.value) || one.entry.slot - two.entry.slot);
  return keyed.map(({ entry }) => entry);
}

export const nameButton = (entry, choose, key) =>
  button(String(entry.name), () => choose(entry.slot), {
    'data-key': `${key} ${entry.slot}`, 'aria-pressed': String(entry.slot === state.slot),
  });

function row(entry, shownColumns, { choose, tick }) {
  const box = make('input', {
    type: 'checkbox', 'data-key': `tick ${entry.slot}`, 'aria-label': `Tick ${entry.name}`, checked: state.ticked.has(entry.slot),
    on: { change: (event) => tick(entry.slot, event.target.checked) },
  });
  const swatch = make('span', { class: 'swatch', 'aria-hidden': 'true' });
  swatch.style.background = entry.sectorCount > 0 ? colourOf(entry.slot) : 'transparent';
  const cells = shownColumns.map(({ key, text, of }) => {
    if (key === 'name') return make('th', { scope: 'row', class: 'text' }, swatch, nameButton(entry, choose, 'name'));
    return make('td', { class: text ? 'text' : null }, text ? of(entry) : shown(of(entry)));
  });
  const point = () => pointAt(entry.slot);
  const leave = () => pointAt(null);
  return make('tr', {
    class: entry.slot === state.slot ? 'chosen' : null,
    on: { pointerenter: point, pointerleave: leave, focusin: point, focusout: leave },
  }, make('td', {}, box), ...cells);
}

export function drawList(act) {
  const shownColumns = columns();
  const heads = shownColumns.map(({ key, text }) => {
    const now = state.sort.by === key;
    const sign = now ? (state.sort.down ? ' ▼' : ' ▲') : '';
    const order = now ? (state.sort.down ? 'descending' : 'ascending') : 'none';
    return make('th', { scope: 'col', class: text ? 'text' : null, 'aria-sort': order },
      button(`${key}${sign}`, () => act.sort(key), { 'data-key': `sort ${key}` }));
  });
  const corner = make('td', {});
  byId('list').replaceChildren(make('table', {},
    make('caption', {}, `${counted(entries().length, 'file')}. A name chooses the file; a heading sorts.`),
    make('thead', {}, make('tr', {}, corner, ...heads)),
    make('tbody', {}, ...sorted(shownColumns).map((entry) => row(entry, shownColumns, act)))));
  drawTicked(act);
}

function drawTicked({ tickAll, eraseTicked }) {
  const [many, all] = [tickedEntries().length, entries().length];
  byId('ticked').replaceChildren(
    button(many === all && all > 0 ? 'Tick none' : 'Tick all', tickAll, { 'data-key': 'tick all', disabled: all === 0 }),
    button(many > 0 ? `Erase ${counted(many, 'ticked file')}` : 'Erase ticked files', eraseTicked, { 'data-key': 'erase ticked', disabled: many === 0 }));
}
