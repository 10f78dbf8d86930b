// The disks that the page is tried on, made with the library: all bytes are drawn, always the same.
import { readFileSync, writeFileSync } from 'node:fs';
import { Kind, blank, load } from '../../js/varnucht.js';

export const varnucht = await load(readFileSync(new URL('../../js/varnucht-plain.wasm', import.meta.url)));

export const drawn = (length, seed = 1) => Uint8Array.from({ length }, (_, i) => (seed + i * 7 + (i >> 8)) & 255);
const START = { page: 1, offset: 32768 };
const text = (string) => new TextEncoder().encode(string);

// Names that are markup, paths, and bytes that give orders; those that no save takes are put in afterwards.
export const HOSTILE = ['<b>X</b>', '"><i id=z', '<script>', '../../x', "a'&quot;", 'CON', '..'];
export const WORSE = [[27, 91, 50, 74, 60, 105, 62, 255, 32, 32], [47, 92, 58, 10, 13, 60, 98, 62, 127, 46]];

function hostile() {
  const disk = varnucht.open(blank());
  HOSTILE.forEach((name, i) => disk.save({ kind: Kind.CODE, name, start: START, body: drawn(600 * (i + 1), i) }));
  WORSE.forEach((_, i) => disk.save({ kind: Kind.CODE, name: `W${i}`, start: START, body: drawn(50, i) }));
  const image = disk.image;
  disk.listing.entries.slice(-WORSE.length).forEach(({ slot }, i) => image.set(WORSE[i], 256 * (slot - 1) + 1));
  image.set(text('<i>DISK</i'), 210);
  return image;
}

// Directories in directories, and a file in each.
function nested() {
  const image = blank(20);
  image.set(text('MAGAZINE 7'), 210);
  [['GAMES', 7, 0], ['ARCADE', 8, 7], ['EMPTY', 9, 0]].forEach(([name, code, parent], slot) => {
    image.set([Kind.DIRECTORY, ...text(name.padEnd(10))], 256 * slot);
    [image[256 * slot + 250], image[256 * slot + 254]] = [code, parent];
  });
  const disk = varnucht.open(image);
  ['LETTER', 'CHESS', 'PONG'].forEach((name, i) => disk.save({ kind: Kind.CODE, name, start: START, body: drawn(300 + i) }));
  const after = disk.image;
  [0, 7, 8].forEach((parent, i) => { after[256 * (3 + i) + 254] = parent; });
  after[256 * 3] = Kind.ZX_GENERIC; // the headers of a code file and of the Spectrum's have length and start in the same places
  return after;
}

// The sample with more on it, as a disk that was used for years: for the picture of README.md.
function used(sample) {
  const disk = varnucht.open(sample);
  const save = (i, length) => disk.save({ kind: i % 3 ? Kind.CODE : Kind.SCREEN, name: `PART ${i}`, start: START, body: drawn(length, i) });
  for (let i = 1; i <= 24; i++) save(i, 3000 + ((i * 9973) % 41000));
  for (let i = 2; i <= 24; i += 2) disk.erase(`PART ${i}`);
  disk.save({ kind: Kind.CODE, name: 'ENDING', start: START, body: drawn(60000) });
  return disk.image;
}

// A file whose length was made less, in its slot and in its header: a sector is left over.
function wasteful() {
  const disk = varnucht.open(blank());
  disk.save({ kind: Kind.CODE, name: 'WASTE', start: START, body: drawn(600) });
  const image = disk.image;
  image.set([100, 0], 240);
  image.set([100, 0], 512 * disk.chain('WASTE')[0] + 1);
  return image;
}

// The sample with two maps that share a bit: refused, with a slot.
function broken(sample) {
  const image = sample.slice();
  image.set(image.subarray(256 + 15, 256 + 210), 512 + 15);
  return image;
}

export function makeDisks(room, sample) {
  const disks = {
    sample, short: sample.subarray(0, 1000), long: Buffer.concat([sample, Uint8Array.of(0)]), broken: broken(sample), nested: nested(),
    waste: wasteful(), compilation: used(sample),
  };
  const paths = Object.fromEntries(Object.entries(disks).map(([name, bytes]) => {
    writeFileSync(`${room}/${name}.mgt`, bytes);
    return [name, `${room}/${name}.mgt`];
  }));
  paths.hostile = `${room}/<img src=x onerror=alert(1)>.mgt`;
  writeFileSync(paths.hostile, hostile());
  return paths;
}
