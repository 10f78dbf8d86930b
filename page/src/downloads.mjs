// What leaves the page: downloads, and an image saved back to the file that it came from.
import { fileNameOf, stampedName } from './format.mjs';
import { sameBytes } from './history.mjs';
import { bytesOfFile } from './item.mjs';
import { lengthOf, marksOf, startOf } from './list.mjs';
import { say } from './status.mjs';
import { entries, state } from './state.mjs';
import { Refused, kindWords } from '../../js/varnucht.js';
import { zipOf } from './zip.mjs';

function download(blob, name) {
  const link = document.createElement('a');
  link.href = URL.createObjectURL(blob);
  link.download = name;
  link.click();
  setTimeout(() => URL.revokeObjectURL(link.href), 60000);
}

const plain = (bytes) => new Blob([bytes], { type: 'application/octet-stream' });

export function getFile(entry) {
  const body = state.item.disk.read(entry.name);
  download(plain(body), fileNameOf(entry.name));
  say(`${entry.name} is given as ${fileNameOf(entry.name)}`);
}

// Where each file goes: into folders as the disk has subdirectories, where these fit together.
function pathsOf(disk) {
  const paths = new Map(entries().map((entry) => [entry.slot, fileNameOf(entry.name)]));
  try {
    const around = [];
    for (const { entry, depth } of disk.tree().all) {
      around.length = depth;
      paths.set(entry.slot, [...around, fileNameOf(entry.name)].join('/'));
      around.push(fileNameOf(entry.name));
    }
  } catch (error) {
    if (!(error instanceof Refused)) throw error;
  }
  return paths;
}

// What a body alone does not say. No file of a disk can have a name so long.
const LISTING_NAME = 'varnucht-listing.txt';

function listingText(paths) {
  const heads = ['slot', 'name', 'path', 'kind', 'marks', 'sectors', 'length', 'start'];
  const cells = (entry) => [
    entry.slot, entry.name, paths.get(entry.slot), kindWords(entry.kind), marksOf(entry), entry.sectorCount, lengthOf(entry) ?? '', startOf(entry) ?? '',
  ];
  return [heads, ...entries().map(cells)].map((line) => `${line.join('\t')}\n`).join('');
}

export function getAll() {
  const { disk, label } = state.item;
  const paths = pathsOf(disk);
  const left = [];
  const files = [];
  for (const entry of entries()) {
    if (entry.isDirectory) continue;
    try {
      files.push({ name: paths.get(entry.slot), bytes: disk.read(entry.name) });
    } catch (error) {
      if (!(error instanceof Refused)) throw error;
      left.push(`${entry.name} (${error.number}: ${error.words})`);
    }
  }
  files.push({ name: LISTING_NAME, bytes: new TextEncoder().encode(listingText(paths)) });
  const name = `${label.replace(/\.(mgt|dsk|img|sad)$/i, '')}.zip`;
  download(zipOf(files), name);
  say(`${files.length - 1} files are given in ${name}${left.length ? `. Not in it: ${left.join('; ')}` : ''}`, left.length > 0);
}

export function getDisk() {
  const { item } = state;
  const name = stampedName(item.label, state.downloaded);
  state.downloaded.add(name);
  const image = item.image;
  download(plain(image), name);
  item.stored(image);
  say(`The disk is given as ${name}`);
}

// Replaces the file whole: the browser writes beside it and puts the new one in its place when all is written, so that it is the old
// or the new one whatever happens. One that was altered elsewhere meanwhile is replaced only if the user says so.
export async function saveBack() {
  const { item } = state;
  const image = item.image;
  if ((await item.handle.requestPermission?.({ mode: 'readwrite' })) === 'denied') {
    say(`The browser has no leave to write ${item.label}: nothing was written`, true);
    return;
  }
  const there = await bytesOfFile(await item.handle.getFile());
  if (!sameBytes(there, item.there) && !window.confirm(`${item.label} was altered elsewhere since it was read. Replace it?`)) {
    say(`${item.label} was left as it is`);
    return;
  }
  const out = await item.handle.createWritable();
  try {
    await out.write(image);
    await out.close();
  } catch (error) {
    await out.abort?.().catch(() => {});
    say(`${item.label} was not replaced, the old one is still there: ${error.message}`, true);
    return;
  }
  item.there = image;
  if (!sameBytes(await bytesOfFile(await item.handle.getFile()), image)) {
    say(`${item.label} does not hold what was written: download the disk`, true);
    return;
  }
  item.stored(image);
  say(`${item.label} is replaced by the disk as it is now`);
}
