// Bytes as hex and as text, piece by piece: a long file shows before it is whole.
import { SECTOR_LENGTH, placeOf, sectorOf, trackOf } from '../../js/varnucht.js';
import { byId, make } from './dom.mjs';
import { grouped } from './format.mjs';
import { state } from './state.mjs';

const PIECE = 4096; // whole lines of hex
const LINE = 16;

const sign = (byte) => (byte >= 32 && byte <= 126 ? String.fromCharCode(byte) : '.');
const two = (byte) => byte.toString(16).padStart(2, '0');

function hexLine(bytes, at, digits) {
  const cells = Array.from(bytes, two);
  const half = (from) => cells.slice(from, from + LINE / 2).join(' ');
  const all = `${half(0)}  ${half(LINE / 2)}`.padEnd(3 * LINE + 1);
  return `${at.toString(16).padStart(digits, '0')}  ${all} |${Array.from(bytes, sign).join('')}|`;
}

function hexOf(bytes, from, digits) {
  const lines = [];
  for (let at = 0; at < bytes.length; at += LINE) lines.push(hexLine(bytes.subarray(at, at + LINE), from + at, digits));
  return lines.join('\n');
}

// Lines end with 13, 10 or both in that order. `last` is the byte before, of the piece before.
function textOf(bytes, last) {
  let text = '';
  for (const byte of bytes) {
    if (byte === 13 || (byte === 10 && last !== 13)) text += '\n';
    else if (byte !== 10) text += byte === 9 || (byte >= 32 && byte <= 126) ? String.fromCharCode(byte) : '·';
    last = byte;
  }
  return text;
}

let latestView = 0; // a view that was begun later stops those before

function open(title, said) {
  byId('view').hidden = false;
  byId('view-title').textContent = title;
  byId('view-status').textContent = said;
  byId('bytes').scrollTop = 0;
  byId('bytes').replaceChildren();
  return ++latestView;
}

export function closeView() {
  latestView++;
  byId('view').hidden = true;
  byId('bytes').replaceChildren();
}

// The sector that the map's cursor is at.
export function showSector() {
  const { item, sector: number } = state;
  const [track, sector] = [trackOf(number), sectorOf(number)];
  const bytes = item.sector(track, sector, number);
  const short = bytes.length < SECTOR_LENGTH ? `; the image has ${bytes.length} bytes of it` : '';
  open(`Track ${track}, sector ${sector}`, `Number ${number}, byte ${grouped(placeOf(number))} of the image${short}`);
  byId('bytes').append(make('pre', {}, hexOf(bytes, 0, 3)));
}

// A file's body by a reader of the library, which refuses what cannot be read.
export function showFile(entry, asText) {
  const { disk } = state.item;
  const reader = disk.reader(entry.name);
  const total = reader.left;
  const mine = open(`${entry.name} as ${asText ? 'text' : 'hex'}`, '');
  const pre = make('pre', { class: asText ? 'words' : null });
  byId('bytes').append(pre);
  const digits = Math.max(3, (total - 1).toString(16).length);
  const pieces = reader.pieces(PIECE);
  let [done, last] = [0, 0];
  const step = () => {
    if (mine !== latestView) return;
    const { value: piece } = pieces.next();
    if (piece) {
      pre.append(asText ? textOf(piece, last) : make('div', {}, hexOf(piece, done, digits)));
      [done, last] = [done + piece.length, piece.at(-1)];
    }
    byId('view-status').textContent = done < total ? `${grouped(done)} of ${grouped(total)} bytes` : `${grouped(total)} bytes`;
    if (done < total) setTimeout(step);
  };
  step();
}
