// The map of the sectors: a side above the other, tracks across, sectors down; each file its colour. Where the page is narrow a side has
// two bands of 40 tracks.
import { SECTORS, sectorNumber, sectorOf, trackOf } from '../../js/varnucht.js';
import { byId } from './dom.mjs';
import { chosenEntry, entries, state } from './state.mjs';

const TRACKS = 80;
const ROWS = 10;
const GAP = 8; // between bands

// The same file has the same colour after every change.
export const colourOf = (slot) => `hsl(${Math.round((slot * 137.508) % 360)} 65% ${slot % 2 ? 48 : 58}%)`;

function shape() {
  const width = byId('sectors').clientWidth || 800;
  const across = width < 560 ? TRACKS / 2 : TRACKS;
  const cell = Math.max(4, Math.min(12, Math.floor(width / across)));
  return { across, cell, bands: (2 * TRACKS) / across, band: ROWS * cell + GAP };
}

// Where a sector is drawn, and which one is at a place.
function placeIn({ across, cell, band }, number) {
  const [track, side] = [trackOf(number) % 128, trackOf(number) >= 128 ? 1 : 0];
  const row = (side * TRACKS + track - (track % across)) / across;
  return { x: (track % across) * cell, y: row * band + (sectorOf(number) - 1) * cell };
}

function numberAt({ across, cell, bands, band }, x, y) {
  const [row, column, line] = [Math.floor(y / band), Math.floor(x / cell), Math.floor((y % band) / cell)];
  if (row < 0 || row >= bands || column < 0 || column >= across || line < 0 || line >= ROWS) return null;
  const place = row * across + column;
  return sectorNumber((place % TRACKS) + (place >= TRACKS ? 128 : 0), line + 1);
}

// Whose each sector is: a file's slot, the directory's or nobody's; of a refused disk nothing is known.
const DIRECTORY = -1;
const FREE = 0;
const UNKNOWN = -2;
const OWNER_WORDS = { [DIRECTORY]: 'the directory', [FREE]: 'free', [UNKNOWN]: 'not told, the disk is refused' };

function owners() {
  const { disk } = state.item;
  if (!disk) return Array(SECTORS).fill(UNKNOWN);
  const all = Array.from({ length: SECTORS }, (_, number) => (disk.directory.holds(number) ? DIRECTORY : FREE));
  for (const entry of entries()) for (const number of entry.sectors) all[number] = entry.slot;
  return all;
}

let owned = [];
let ownedOf = null; // the listing that it was made of: another one after every change

export const ownerOf = (number) => entries().find((entry) => entry.slot === owned[number]) ?? null;

// What is said of a sector.
function sectorWords(number) {
  const where = `Track ${trackOf(number)}, sector ${sectorOf(number)}`;
  const entry = ownerOf(number);
  if (entry === null) return `${where}: ${OWNER_WORDS[owned[number]]}`;
  const chain = state.item.disk.chain(entry.name);
  return `${where}: ${entry.name}, its sector ${chain.indexOf(number) + 1} of ${chain.length}`;
}

function paint() {
  const [canvas, form] = [byId('map'), shape()];
  const ratio = window.devicePixelRatio || 1;
  const [width, height] = [form.across * form.cell, form.bands * form.band - GAP];
  Object.assign(canvas, { width: width * ratio, height: height * ratio });
  Object.assign(canvas.style, { width: `${width}px`, height: `${height}px` });
  const style = getComputedStyle(document.documentElement);
  const variable = (name) => style.getPropertyValue(name).trim();
  const plain = { [DIRECTORY]: variable('--map-dir'), [FREE]: variable('--map-free'), [UNKNOWN]: variable('--map-free') };
  const highlighted = state.hover ?? chosenEntry()?.slot ?? null;
  const pen = canvas.getContext('2d');
  pen.scale(ratio, ratio);
  owned.forEach((owner, number) => {
    const { x, y } = placeIn(form, number);
    pen.globalAlpha = highlighted !== null && owner > 0 && owner !== highlighted ? 0.35 : 1;
    pen.fillStyle = owner > 0 ? colourOf(owner) : plain[owner];
    pen.fillRect(x, y, form.cell - 1, form.cell - 1);
  });
  pen.globalAlpha = 1;
  const { x, y } = placeIn(form, state.sector);
  pen.strokeStyle = variable('--front');
  pen.lineWidth = 2;
  pen.strokeRect(x, y, form.cell - 1, form.cell - 1);
}

// What is said is what the cursor is at; a screen reader reads it as the slider's value.
function announce() {
  const text = sectorWords(state.sector);
  byId('map').setAttribute('aria-valuenow', state.sector);
  byId('map').setAttribute('aria-valuetext', text);
  byId('map-status').textContent = text;
}

export function drawMap() {
  const listing = state.item.disk?.listing ?? null;
  if (listing === null || listing !== ownedOf) owned = owners();
  ownedOf = listing;
  paint();
  announce();
}

// Points at a file: its sectors stand out.
export function pointAt(slot) {
  if (state.hover === slot) return;
  state.hover = slot;
  paint();
}

export function moveTo(number) {
  state.sector = number;
  paint();
  announce();
}

// Arrows go by tracks and by sectors, over the edges to the other side.
function stepped(key, number) {
  const place = (trackOf(number) % 128) + (trackOf(number) >= 128 ? TRACKS : 0);
  const line = sectorOf(number) - 1;
  const to = (p, l) => sectorNumber((p % TRACKS) + (p >= TRACKS ? 128 : 0), l + 1);
  const tracks = 2 * TRACKS;
  if (key === 'ArrowRight') return to((place + 1) % tracks, line);
  if (key === 'ArrowLeft') return to((place + tracks - 1) % tracks, line);
  if (key === 'ArrowDown') return line === ROWS - 1 ? to((place + TRACKS) % tracks, 0) : to(place, line + 1);
  if (key === 'ArrowUp') return line === 0 ? to((place + TRACKS) % tracks, ROWS - 1) : to(place, line - 1);
  if (key === 'Home') return to(0, 0);
  if (key === 'End') return to(tracks - 1, ROWS - 1);
  return null;
}

// choose: what happens when a sector is chosen.
export function readyMap(choose) {
  const canvas = byId('map');
  const under = (event) => {
    const box = canvas.getBoundingClientRect();
    return numberAt(shape(), event.clientX - box.left, event.clientY - box.top);
  };
  canvas.addEventListener('pointermove', (event) => {
    const number = under(event);
    byId('map-status').textContent = sectorWords(number ?? state.sector);
    pointAt(number === null ? null : ownerOf(number)?.slot ?? null);
  });
  canvas.addEventListener('pointerleave', () => {
    pointAt(null);
    byId('map-status').textContent = sectorWords(state.sector);
  });
  canvas.addEventListener('click', (event) => {
    const number = under(event);
    if (number !== null) choose(number);
  });
  canvas.addEventListener('keydown', (event) => {
    if (event.ctrlKey || event.metaKey || event.altKey) return;
    const number = event.key === 'Enter' || event.key === ' ' ? state.sector : stepped(event.key, state.sector);
    if (number === null) return;
    event.preventDefault();
    if (number === state.sector) choose(number);
    else moveTo(number);
  });
  const again = () => state.item && paint();
  window.addEventListener('resize', again);
  window.matchMedia('(prefers-color-scheme: dark)').addEventListener('change', again);
}
