// Disk images of the SAM Coupé, in node and in pages: check, list, read, save, record, erase, rename, hide, show, protect, release, gather.
//
// The work is done by varnucht.wasm, which is compiled from the library that is proved correct. This module puts objects over it:
// it copies bytes in and out, and makes an error of a refusal. It is tested and not proved. varnucht.d.ts says all it offers.

export const IMAGE_LENGTH = 819200;
export const SECTOR_LENGTH = 512;
export const SECTORS = 1600;
export const DATA_SECTORS = 1560;
export const NAME_LENGTH = 10;
export const LONGEST_BODY = 510 * DATA_SECTORS - 9;
export const REPORT_LENGTH = 496;
export const RECORD_LENGTH = 2048;
export const MOST_DISKS = 65535;

const ENTRY_LENGTH = 258;
const TREE_LIST_LENGTH = 2 * 778;
const LIST_LENGTH = 2 * (DATA_SECTORS + 2); // enough for every change

// ---- Refusals

const WORDS = {
  0: 'accepted',
  1: 'the image is not 819,200 bytes',
  2: 'the kind is not known',
  3: 'the first name byte is 0 (given no more)',
  4: "the count is not 1 to the number of data sectors, or a directory's is not 0",
  5: "the map's set bits are not as many as the count",
  6: 'the first address is not a data sector, or its bit is clear, or the map has a bit inside the directory',
  7: 'carried kind, and 510 × count is below 9 + length',
  8: 'the map shares a bit with an earlier live slot',
  9: "the name is an earlier live slot's, capitals or not",
  10: 'the chain is broken',
  11: "carried kind, and the header's first byte (whole), remainder (mod 16,384) or pages differ from the slot's kind, remainder, pages",
  12: 'the name is not usable',
  13: 'the kind asked for (save) or found (read, start address, tree, gather) is not one that this call takes',
  14: 'start page above 31, or offset outside 32,768 to 49,151 (save, start address)',
  15: 'no live slot has the name, capitals or not',
  16: 'a live slot has the new name, capitals or not',
  17: 'protected (erase, rename)',
  18: 'no slot before the end is erased and there is no end (save)',
  19: 'fewer free sectors than the save takes',
  20: 'a lent output buffer is too short',
  21: 'no such drive, track or sector',
  22: 'carried kind, and the count is above the least that its length needs (waste sectors behind the file)',
  23: 'the names are not a whole number of tens (erase many)',
  24: 'the number of directory tracks beyond four, byte 255 of slot 1, is 36 to 254',
  25: 'kind 1 to 4, and 510 × count is below 9 + the length in the header',
  26: "a directory with code 0 or an earlier directory's code (tree)",
  27: "a live slot's byte 254 is not 0 and no directory's code (tree)",
  28: 'a directory lies inside itself at some depth (tree)',
  29: "a directory whose code, not 0, is another live slot's byte 254 (erase)",
  30: 'the used map or n is not what it was at opening or a sector that its pieces listed lacks its link (recording)',
  31: 'a disk or join that would pass 65,535 disks',
  32: 'the file must move and no run of consecutive free map bits has its length (gather)',
};

export const words = (number) => (Object.hasOwn(WORDS, number) ? WORDS[number] : 'not a number of refusal');

export class Refused extends Error {
  constructor(number, slot = 0) {
    super(`refusal ${number}${slot ? ` at slot ${slot}` : ''}: ${words(number)}`);
    this.name = 'Refused';
    this.number = number;
    this.slot = slot || null;
    this.words = words(number);
  }
}

// What a call answered, where it accepts; else the refusal is thrown.
const accepted = (answer) => {
  if (answer.refusal !== 0) throw new Refused(answer.refusal, answer.slot);
  return answer;
};

// ---- The library's memory. A place is taken for as long as it is used. Where there is none it grows, and every view of before
// is stale from then on: so views are made anew whenever one is needed.

class Memory {
  #memory;
  #holes; // [from, to], rising, none next to another
  #taken = new Map(); // from -> to

  constructor(exports) {
    this.#memory = exports.memory;
    const base = (exports.__heap_base.value + 15) & ~15;
    this.#holes = [[base, this.#memory.buffer.byteLength]];
  }

  get buffer() {
    return this.#memory.buffer;
  }

  view(at, length) {
    return new Uint8Array(this.#memory.buffer, at, length);
  }

  // The lowest place with room for so many bytes.
  take(length) {
    const size = Math.max(16, Math.ceil(length / 16) * 16);
    if (!this.#holes.some(([from, to]) => to - from >= size)) this.#grow(size);
    const place = this.#holes.findIndex(([from, to]) => to - from >= size);
    const hole = this.#holes[place];
    const at = hole[0];
    hole[0] += size;
    if (hole[0] === hole[1]) this.#holes.splice(place, 1);
    this.#taken.set(at, at + size);
    return at;
  }

  give(at) {
    const to = this.#taken.get(at);
    if (to === undefined) return;
    this.#taken.delete(at);
    this.#add(at, to);
  }

  #add(from, to) {
    const place = this.#holes.findIndex((hole) => hole[0] > from);
    this.#holes.splice(place < 0 ? this.#holes.length : place, 0, [from, to]);
    this.#holes = this.#holes.reduce((joined, hole) => {
      const last = joined.at(-1);
      if (last && last[1] === hole[0]) last[1] = hole[1];
      else joined.push(hole);
      return joined;
    }, []);
  }

  #grow(size) {
    const from = this.#memory.buffer.byteLength;
    const last = this.#holes.at(-1);
    const lacks = last && last[1] === from ? size - (last[1] - last[0]) : size;
    const pages = Math.ceil(lacks / 65536);
    try {
      if (from + pages * 65536 > 2 ** 32 - 65536) throw new RangeError();
      this.#memory.grow(pages);
    } catch {
      throw new RangeError(`there is no room for ${size} bytes in the library's memory`);
    }
    this.#add(from, this.#memory.buffer.byteLength);
  }
}

// ---- The calls. Each is the library's own, on bytes: what its arguments are, in the order of varnucht.h, stands here and nowhere
// else. What may be changed is copied back after the call.

const READ = 'read'; // bytes that are only read
const LENT = 'lent'; // bytes that may be changed
const NUMBER = 'number'; // 0 to 2^32 - 1

const CALLS = {
  check: [READ],
  checkRelease: [READ],
  list: [READ, LENT],
  read: [READ, READ, LENT],
  open: [READ, READ],
  next: [READ, NUMBER, NUMBER, NUMBER, LENT],
  start: [READ, READ],
  tree: [READ, READ, LENT],
  sector: [READ, READ, NUMBER, NUMBER, NUMBER],
  reportAdd: [READ, LENT],
  reportJoin: [LENT, READ],
  save: [LENT, NUMBER, READ, NUMBER, NUMBER, READ, READ, READ, LENT],
  erase: [LENT, READ, LENT],
  eraseMany: [LENT, READ, LENT, LENT],
  rename: [LENT, READ, READ, LENT],
  hide: [LENT, READ, LENT],
  show: [LENT, READ, LENT],
  protect: [LENT, READ, LENT],
  release: [LENT, READ, LENT],
  gather: [LENT, READ, LENT],
  recordOpen: [READ, NUMBER, READ, NUMBER, NUMBER, READ, READ, LENT],
  recordAdd: [LENT, READ, LENT, LENT],
  recordClose: [LENT, READ, LENT],
};

// In a memory of 32 bits no slice is longer: varnucht.h says so, since the compiler counts on it.
const LONGEST = 2 ** 31 - 1;

const exportOf = (name) => `varnucht_${name.replace(/[A-Z]/g, (letter) => `_${letter.toLowerCase()}`)}`;

// Also of a Uint8Array of another frame, and of node's Buffer.
const isBytes = (value) => Object.prototype.toString.call(value) === '[object Uint8Array]';

const bytesOf = (value, what) => {
  if (isBytes(value)) return value;
  if (Object.prototype.toString.call(value) === '[object ArrayBuffer]') return new Uint8Array(value);
  throw new TypeError(`${what} must be bytes, a Uint8Array or an ArrayBuffer`);
};

// A number that the library takes as it is. WebAssembly would cut off what does not fit.
const numberOf = (value, what) => {
  if (typeof value !== 'number') throw new TypeError(`${what} must be a number`);
  if (!Number.isInteger(value) || value < 0 || value > 0xffffffff) {
    throw new RangeError(`${what} must be a whole number, 0 to 4,294,967,295`);
  }
  return value;
};

const overlap = (one, two) =>
  one.bytes.buffer === two.bytes.buffer && one.from < two.from + two.length && two.from < one.from + one.length;

// The slices of a call, before anything is copied. The rule of varnucht.h holds here too: what may be changed overlaps nothing.
function slicesOf(name, kinds, given) {
  if (given.length !== kinds.length) throw new TypeError(`${name} takes ${kinds.length} arguments, and got ${given.length}`);
  const all = given.map((value, i) => {
    const what = `argument ${i + 1} of ${name}`;
    if (kinds[i] === NUMBER) return { number: numberOf(value, what) };
    if (!isBytes(value)) throw new TypeError(`${what} must be a Uint8Array`);
    if (value.byteLength > LONGEST) throw new RangeError(`${what} is longer than the library's memory allows`);
    return { bytes: value, from: value.byteOffset, length: value.byteLength, lent: kinds[i] === LENT };
  });
  const slices = all.filter((slice) => slice.bytes && slice.length > 0);
  for (const one of slices.filter((slice) => slice.lent)) {
    if (slices.some((two) => one !== two && overlap(one, two))) {
      throw new RangeError(`${name}: bytes that may be changed overlap other bytes of the call`);
    }
  }
  return all;
}

function callsOf(exports, memory) {
  const stack = exports.__stack_pointer;
  const make = (name, kinds) => {
    const run = exports[exportOf(name)];
    if (typeof run !== 'function') throw new Error(`the WebAssembly has no ${exportOf(name)}: it is no match for this module`);
    return (...given) => {
      const all = slicesOf(name, kinds, given);
      const slices = all.filter((slice) => slice.bytes);
      // What lies in the library's memory is lent where it lies; the rest is copied there.
      const copied = slices.filter((slice) => slice.length > 0 && slice.bytes.buffer !== memory.buffer);
      for (const slice of slices) slice.at = copied.includes(slice) ? null : slice.length > 0 ? slice.from : 0;
      const top = stack.value;
      try {
        for (const slice of copied) slice.at = memory.take(slice.length);
        for (const { bytes, at, length } of copied) memory.view(at, length).set(bytes);
        const words = all.flatMap((slice) => (slice.bytes ? [slice.at, BigInt(slice.length)] : [slice.number]));
        const answer = BigInt.asUintN(64, run(...words));
        for (const { bytes, at, length } of copied.filter((slice) => slice.lent)) bytes.set(memory.view(at, length));
        return answerOf(answer);
      } finally {
        stack.value = top; // it is so already, but where the engine itself gave up
        copied.forEach(({ at }) => memory.give(at));
      }
    };
  };
  return Object.freeze(Object.fromEntries(Object.entries(CALLS).map(([name, kinds]) => [name, make(name, kinds)])));
}

// answer = refusal + 256 * slot + 2^24 * value + 2^48 * free
const answerOf = (number) => ({
  refusal: Number(number & 0xffn),
  slot: Number((number >> 8n) & 0xffffn),
  value: Number((number >> 24n) & 0xffffffn),
  free: Number(number >> 48n),
});

// ---- Names

export function escape(bytes) {
  const shown = (byte, place) => {
    if (byte === 92) return '\\\\';
    if (byte >= (place === 0 ? 33 : 32) && byte <= 126) return String.fromCharCode(byte);
    return `\\x${byte.toString(16).padStart(2, '0')}`;
  };
  return Array.from(bytes, shown).join('');
}

export function unescape(text) {
  const bytes = [];
  for (let rest = text; rest !== ''; ) {
    const [whole, hex] = /^\\(?:\\|x([0-9a-fA-F]{2}))|^[^\\]/u.exec(rest) ?? [];
    if (whole === undefined) {
      throw new SyntaxError(`a backslash begins \\\\ or \\xHH, and the one at place ${text.length - rest.length + 1} begins neither`);
    }
    if (hex !== undefined) bytes.push(parseInt(hex, 16));
    else bytes.push(...new TextEncoder().encode(whole === '\\\\' ? '\\' : whole));
    rest = rest.slice(whole.length);
  }
  return Uint8Array.from(bytes);
}

const givenBytes = (given) => {
  if (given instanceof Name) return given.bytes;
  if (typeof given === 'string') return new TextEncoder().encode(given);
  if (isBytes(given)) return given;
  throw new TypeError('a name must be a string, a Uint8Array or a Name');
};

const folded = (byte) => (byte >= 97 && byte <= 122 ? byte - 32 : byte);

export class Name {
  #bytes = new Uint8Array(NAME_LENGTH).fill(32);

  constructor(given) {
    const bytes = givenBytes(given);
    if (new.target.unusable(bytes) !== null) throw new Refused(12);
    this.#bytes.set(bytes);
  }

  static unusable(given) {
    const bytes = givenBytes(given);
    if (bytes.length === 0) return 'has no byte, and a name has 1 to 10';
    if (bytes.length > NAME_LENGTH) return `has ${bytes.length} bytes, and a name has 1 to 10`;
    return bytes[0] === 0 ? 'begins with the byte 0' : null;
  }

  get bytes() {
    return this.#bytes.slice();
  }

  get trimmed() {
    let length = NAME_LENGTH;
    while (length > 1 && this.#bytes[length - 1] === 32) length--;
    return this.#bytes.slice(0, length);
  }

  equals(other) {
    const bytes = new Name(other).#bytes;
    return this.#bytes.every((byte, i) => folded(byte) === folded(bytes[i]));
  }

  toString() {
    return escape(this.trimmed);
  }
}

export class NewName extends Name {
  static unusable(given) {
    const bytes = givenBytes(given);
    const why = Name.unusable(bytes);
    if (why !== null) return why;
    if (bytes[0] === 32) return 'begins with a space';
    const place = bytes.findIndex((byte) => byte < 32 || byte > 126);
    return place < 0 ? null : `has ${bytes[place]} as byte ${place + 1}, and a new name has bytes 32 to 126 alone`;
  }
}

const nameOf = (given) => (given instanceof Name ? given : new Name(given)).bytes;
const newNameOf = (given) => (given instanceof NewName ? given : new NewName(given)).bytes;

// ---- Kinds, starts, places and directories

export const Kind = Object.freeze({
  ZX_BASIC: 1, ZX_NUMERIC_ARRAY: 2, ZX_STRING_ARRAY: 3, ZX_GENERIC: 4,
  BASIC: 16, NUMERIC_ARRAY: 17, STRING_ARRAY: 18, CODE: 19, SCREEN: 20,
  DIRECTORY: 21,
});

const KIND_WORDS = {
  1: 'ZX BASIC', 2: 'ZX numeric array', 3: 'ZX string array', 4: 'ZX generic', 5: 'ZX snapshot 48K', 6: 'microdrive',
  7: 'ZX screen', 8: 'special', 9: 'ZX snapshot 128K', 10: 'opentype', 11: 'execute', 12: 'ZX directory', 16: 'BASIC',
  17: 'numeric array', 18: 'string array', 19: 'code', 20: 'screen', 21: 'directory', 22: 'DRiVER application',
  23: 'DRiVER boot',
};

export const kindWords = (kind) => KIND_WORDS[kind] ?? `kind ${kind}`;
export const isCarried = (kind) => kind >= 16 && kind <= 20;
export const isSpectrum = (kind) => kind >= 1 && kind <= 4;

export class Start {
  constructor(page, offset) {
    const within = (value, from, to) => Number.isInteger(value) && value >= from && value <= to;
    if (!within(page, 0, 31) || !within(offset, 32768, 49151)) throw new Refused(14);
    this.page = page;
    this.offset = offset;
    Object.freeze(this);
  }

  get address() {
    return this.page * 16384 + this.offset - 16384;
  }
}

// A sector by its number, 0 to 1,599.
export const placeOf = (number) => number * SECTOR_LENGTH;
export const trackOf = (number) => Math.floor(number / 20) + 128 * (Math.floor(number / 10) % 2);
export const sectorOf = (number) => (number % 10) + 1;

export function sectorNumber(track, sector) {
  const there = Number.isInteger(track) && ((track >= 0 && track <= 79) || (track >= 128 && track <= 207));
  if (!there || !Number.isInteger(sector) || sector < 1 || sector > 10) throw new Refused(21);
  return (2 * (track % 128) + Math.floor(track / 128)) * 10 + sector - 1;
}

// The sector that a bit of a map stands for.
const numberOfBit = (bit) => {
  const track = bit < 760 ? 4 + Math.floor(bit / 10) : 128 + Math.floor((bit - 760) / 10);
  return sectorNumber(track, (bit % 10) + 1);
};

// The bit of a map that stands for a sector; -1 on tracks 0 to 3.
const bitOfNumber = (number) => {
  const track = trackOf(number);
  if (track < 4) return -1;
  return (track < 128 ? (track - 4) * 10 : 760 + (track - 128) * 10) + sectorOf(number) - 1;
};

export class Directory {
  constructor(tracks = 4) {
    if (!Number.isInteger(tracks) || tracks < 4 || tracks > 39) throw new RangeError('a directory has 4 to 39 tracks');
    this.tracks = tracks;
    Object.freeze(this);
  }

  // As slot 1 of an image says. SAMDOS fills unused bytes with 255.
  static of(image) {
    const more = image[255] === 255 ? 0 : image[255];
    if (!(more <= 35)) throw new Refused(24);
    return new Directory(4 + more);
  }

  get slots() {
    return 2 * this.sectors;
  }

  get sectors() {
    return SECTORS - this.dataSectors;
  }

  get dataSectors() {
    return this.tracks === 4 ? DATA_SECTORS : SECTORS + 1 - 10 * this.tracks;
  }

  // Track 4 sector 1 is never the directory's.
  holds(number) {
    return trackOf(number) < this.tracks && number !== sectorNumber(4, 1);
  }

  static sectorOfSlot(slot) {
    const place = Math.floor((slot - 1) / 2);
    const [track, sector] = place < 40 ? [Math.floor(place / 10), place % 10] : [Math.floor((place + 1) / 10), (place + 1) % 10];
    return sectorNumber(track, sector + 1);
  }
}

// The disk's name in slot 1; null where it has none. Bit 7 of its first byte is no part of it.
function diskName(image) {
  const bytes = image.slice(210, 220);
  bytes[0] &= 127;
  let length = bytes.length;
  while (length > 0 && (bytes[length - 1] === 32 || bytes[length - 1] === 0)) length--;
  return bytes[0] === 0 || bytes[0] === 127 || length === 0 ? null : bytes.slice(0, length);
}

export function blank(tracks = 4) {
  const image = new Uint8Array(IMAGE_LENGTH);
  image[255] = new Directory(tracks).tracks - 4;
  return image;
}

// ---- Listings

export class Entry {
  #listed;

  constructor(listed) {
    this.#listed = listed;
  }

  get slot() {
    return this.#listed[0] + 256 * this.#listed[1];
  }

  get bytes() {
    return this.#listed.slice(2);
  }

  #at(place) {
    return this.#listed[2 + place];
  }

  get hidden() {
    return (this.#at(0) & 0x80) !== 0;
  }

  get protected() {
    return (this.#at(0) & 0x40) !== 0;
  }

  get kind() {
    return this.#at(0) & 0x3f;
  }

  get isDirectory() {
    return this.kind === Kind.DIRECTORY;
  }

  get name() {
    return new Name(this.#listed.subarray(3, 13));
  }

  get code() {
    return this.isDirectory ? this.#at(250) : null;
  }

  get parentCode() {
    return this.#at(254);
  }

  get sectorCount() {
    return 256 * this.#at(11) + this.#at(12);
  }

  get sectors() {
    const set = (bit) => (this.#at(15 + (bit >> 3)) >> (bit & 7)) & 1;
    return Array.from({ length: DATA_SECTORS }, (_, bit) => bit).filter(set).map(numberOfBit);
  }

  get length() {
    return isCarried(this.kind) ? this.#at(239) * 16384 + (this.#at(241) & 63) * 256 + this.#at(240) : null;
  }

  get leastSectors() {
    return this.length === null ? null : Math.ceil((9 + this.length) / 510);
  }

  get start() {
    const offset = this.#at(237) + 256 * this.#at(238);
    return isCarried(this.kind) && offset >= 32768 && offset <= 49151 ? new Start(this.#at(236) & 31, offset) : null;
  }

  get execution() {
    return this.#listed.slice(244, 247);
  }

  get information() {
    return this.#listed.slice(223, 234);
  }
}

export class Listing {
  constructor(entries, free, directory) {
    this.entries = Object.freeze(entries);
    this.free = free;
    this.directory = directory;
    Object.freeze(this);
  }

  find(name) {
    const wanted = new Name(name);
    return this.entries.find((entry) => entry.name.equals(wanted)) ?? null;
  }

  get freeSlots() {
    return this.directory.slots - this.entries.length;
  }

  // The longest body that can be saved; null where no sector or no slot is free.
  get room() {
    return this.freeSlots > 0 && this.free > 0 ? 510 * this.free - 9 : null;
  }

  // The directory that a file is in: null for the root, undefined where it is not there.
  within(entry) {
    if (entry.parentCode === 0) return null;
    return this.entries.find((other) => other.code === entry.parentCode);
  }
}

// ---- Trees: one list, in which a directory is directly followed by what lies beneath it.

export class Branch {
  #nodes;
  #place;

  constructor(nodes, place) {
    this.#nodes = nodes;
    this.#place = place;
  }

  get entry() {
    return this.#nodes[this.#place].entry;
  }

  get depth() {
    return this.#nodes[this.#place].depth;
  }

  get length() {
    return this.#nodes[this.#place].beneath;
  }

  get branches() {
    return levelOf(this.#nodes, this.#place + 1, this.#place + 1 + this.length);
  }
}

function levelOf(nodes, from, to) {
  const level = [];
  for (let place = from; place < to; place += 1 + nodes[place].beneath) level.push(new Branch(nodes, place));
  return level;
}

export class Tree {
  #nodes = [];

  constructor(entries) {
    const around = []; // the directories around the next entry
    for (const entry of entries) {
      while (around.length > 0 && around.at(-1).entry.code !== entry.parentCode) around.pop();
      around.forEach((node) => node.beneath++);
      const node = { entry, depth: around.length, beneath: 0 };
      this.#nodes.push(node);
      if (entry.isDirectory) around.push(node);
    }
  }

  get length() {
    return this.#nodes.length;
  }

  get all() {
    return this.#nodes.map((_, place) => new Branch(this.#nodes, place));
  }

  get branches() {
    return levelOf(this.#nodes, 0, this.#nodes.length);
  }
}

// ---- Sectors that a change altered, in the order of writing

export class WriteError extends Error {
  constructor(words, written, of, cause) {
    super(words, cause === undefined ? undefined : { cause });
    this.name = 'WriteError';
    this.written = written;
    this.of = of;
  }
}

// What a sector is to the disk that is stored.
const WHOLE_CHANGE = 'whole change'; // the last one makes the change
const EACH_SECTOR = 'each sector'; // each is a change of its own
const INVISIBLE = 'invisible'; // none changes anything that is seen

const stopped = (written, of, unit, cause) => {
  let then = 'The old disk is still there and reads as before';
  if (unit === INVISIBLE) {
    then = 'All files are there as before; the recording cannot go on';
  } else if (unit === EACH_SECTOR) {
    then = 'The files erased in those are gone, and all others are still there; but the sector that failed may hold the old bytes or the new: check the disk';
  } else if (written + 1 >= of) {
    then = "The directory's sector was the one that failed, and may hold the old bytes or the new: check the disk";
  }
  return new WriteError(`${written} of ${of} sectors were written, and then: ${cause?.message ?? cause}. ${then}`, written, of, cause);
};

export class Sectors {
  #sectors;
  #order;
  #unit;

  // order: where this change stands among those of its disk.
  constructor(sectors, order, unit) {
    this.#sectors = sectors;
    this.#order = order;
    this.#unit = unit;
  }

  get numbers() {
    return this.#sectors.map(({ number }) => number);
  }

  get length() {
    return this.#sectors.length;
  }

  [Symbol.iterator]() {
    return this.#sectors.map((sector) => ({ ...sector, bytes: sector.bytes.slice() }))[Symbol.iterator]();
  }

  async writeTo(write, progress = () => {}) {
    const of = this.length;
    if (of === 0) return;
    if (this.#order.written()) throw new WriteError('nothing was written, because these sectors are written already', 0, of);
    if (this.#order.skips()) {
      throw new WriteError(
        'nothing was written, because an earlier change of this disk was not written whole. Open the disk anew from where it is stored', 0, of);
    }
    let written = 0;
    for (const { place, bytes, number } of this) {
      try {
        await write(place, bytes, number);
      } catch (cause) {
        throw stopped(written, of, this.#unit, cause);
      }
      progress(++written, of);
    }
    this.#order.done();
  }
}

// ---- Readers

export class Reader {
  #disk;
  #state;

  constructor(disk, state) {
    this.#disk = disk;
    this.#state = state;
  }

  get left() {
    return this.#state.left;
  }

  read(out) {
    const { sector, offset, left } = this.#state;
    const piece = this.#disk.nextPiece(this.#state.changes, sector, offset, left, out);
    this.#state = { ...this.#state, sector: piece.slot, offset: piece.free, left: left - piece.value };
    return piece.value;
  }

  *pieces(length) {
    if (!Number.isInteger(length) || length < 1) throw new RangeError('a piece has at least one byte');
    while (this.left > 0) {
      const piece = new Uint8Array(Math.min(length, this.left));
      this.read(piece);
      yield piece;
    }
  }
}

// ---- Recordings: what is kept of one between its pieces does not grow with it, and holds no disk.

export class Recording {
  #record;
  #calls;

  // calls: those of its disk, on the record.
  constructor(record, calls) {
    const bytes = bytesOf(record, 'a record');
    if (bytes.length !== RECORD_LENGTH) throw new RangeError(`a record has ${RECORD_LENGTH} bytes`);
    this.#record = bytes.slice();
    this.#calls = calls;
  }

  get bytes() {
    return this.#record.slice();
  }

  add(piece) {
    return this.#calls.add(bytesOf(piece, 'a piece'), this.#record);
  }

  close() {
    return this.#calls.close(this.#record);
  }
}

// ---- Disks

// A file to save or to record, as the library is asked for it.
const requestOf = ({ kind, name, start, execution = [255, 255, 255], information = [] }) => {
  const { page, offset } = start;
  return [kind, newNameOf(name), page, offset, Uint8Array.from(execution), Uint8Array.from(information)];
};

// A disk that nobody has any more gives its place back.
const dropped = new FinalizationRegistry(({ memory, at }) => memory.give(at));

export class Disk {
  #library;
  #at; // where its image lies in the library's memory
  #listing;
  #changes = 0; // of what is seen
  #writes = 0; // all that is to be written: these changes, and pieces of recordings
  #stored = 0; // how many of these writes are done whole

  constructor(library, image) {
    const bytes = bytesOf(image, 'an image');
    if (bytes.length !== IMAGE_LENGTH) throw new Refused(1);
    this.#library = library;
    this.#at = library.memory.take(IMAGE_LENGTH);
    try {
      this.#lent().set(bytes);
      this.#list();
    } catch (refused) {
      library.memory.give(this.#at);
      throw refused;
    }
    dropped.register(this, { memory: library.memory, at: this.#at }, this);
  }

  close() {
    if (this.#at === null) return;
    dropped.unregister(this);
    this.#library.memory.give(this.#at);
    this.#at = null;
  }

  // The image where it lies, to be lent to one call.
  #lent() {
    if (this.#at === null) throw new Error('the disk is closed');
    return this.#library.memory.view(this.#at, IMAGE_LENGTH);
  }

  #ask(name, ...given) {
    return accepted(this.#library.calls[name](this.#lent(), ...given));
  }

  #list() {
    // Where slot 1 says no size the library refuses the image, whatever the room.
    const more = this.#lent()[255];
    const slots = more <= 35 || more === 255 ? Directory.of(this.#lent()).slots : 0;
    const out = new Uint8Array(ENTRY_LENGTH * slots);
    const done = this.#ask('list', out);
    const entry = (_, i) => new Entry(out.slice(ENTRY_LENGTH * i, ENTRY_LENGTH * (i + 1)));
    this.#listing = new Listing(Array.from({ length: done.value }, entry), done.free, Directory.of(this.#lent()));
  }

  get image() {
    return this.#lent().slice();
  }

  get listing() {
    return this.#listing;
  }

  get directory() {
    return this.#listing.directory;
  }

  get name() {
    const bytes = diskName(this.#lent());
    return bytes && escape(bytes);
  }

  clone() {
    return new Disk(this.#library, this.image);
  }

  checkRelease() {
    this.#ask('checkRelease');
  }

  sector(track, sector) {
    const at = this.#lent();
    const found = accepted(this.#library.calls.sector(at, at, 1, track, sector));
    return at.slice(found.value, found.value + SECTOR_LENGTH);
  }

  length(name) {
    return this.#ask('open', nameOf(name)).value;
  }

  read(name) {
    const asked = nameOf(name);
    const body = new Uint8Array(this.#ask('open', asked).value);
    this.#ask('read', asked, body);
    return body;
  }

  reader(name) {
    const found = this.#ask('open', nameOf(name));
    return new Reader(this, { changes: this.#changes, sector: found.slot, offset: found.free, left: found.value });
  }

  // For a Reader alone.
  nextPiece(changes, sector, offset, left, out) {
    if (changes !== this.#changes) throw new Error('the disk was changed after this reader was opened: open the file again');
    return this.#ask('next', sector, offset, left, out);
  }

  start(name) {
    return this.#ask('start', nameOf(name)).value;
  }

  // A file's sectors in the order in which its bytes lie in them.
  chain(name) {
    const entry = this.#listing.find(name);
    if (entry === null) throw new Refused(15);
    const image = this.#lent();
    const numbers = [];
    let [track, sector] = entry.bytes.subarray(13, 15);
    while (numbers.length < entry.sectorCount) {
      const number = sectorNumber(track, sector);
      numbers.push(number);
      [track, sector] = image.subarray(placeOf(number) + 510, placeOf(number) + 512);
    }
    return numbers;
  }

  isScattered(name) {
    const bits = this.chain(name).map(bitOfNumber);
    return bits.some((bit, i) => i > 0 && bit !== bits[i - 1] + 1);
  }

  tree(name) {
    const slots = new Uint8Array(TREE_LIST_LENGTH);
    const asked = name === undefined || name === null ? new Uint8Array(0) : nameOf(name);
    const many = this.#ask('tree', asked, slots).value;
    const bySlot = new Map(this.#listing.entries.map((entry) => [entry.slot, entry]));
    return new Tree(Array.from({ length: many }, (_, i) => bySlot.get(slots[2 * i] + 256 * slots[2 * i + 1])));
  }

  save(file) {
    return this.#change('save', ...requestOf(file), bytesOf(file.body, 'a body'));
  }

  record(file) {
    const record = new Uint8Array(RECORD_LENGTH);
    this.#ask('recordOpen', ...requestOf(file), record);
    return this.resume(record);
  }

  resume(record) {
    return new Recording(record, {
      add: (piece, own) => this.#sectors(...this.#make('recordAdd', piece, own), INVISIBLE),
      close: (own) => this.#change('recordClose', own),
    });
  }

  erase(name) {
    return this.#change('erase', nameOf(name));
  }

  eraseMany(names) {
    const asked = Array.from(names, nameOf);
    const ten = new Uint8Array(NAME_LENGTH * asked.length);
    asked.forEach((bytes, i) => ten.set(bytes, NAME_LENGTH * i));
    const answers = new Uint8Array(asked.length);
    const sectors = this.#changeSectors(...this.#make('eraseMany', ten, answers), EACH_SECTOR);
    return { answers: Array.from(answers, (number) => (number === 0 ? null : new Refused(number))), sectors };
  }

  rename(name, newName) {
    return this.#change('rename', nameOf(name), newNameOf(newName));
  }

  hide(name) {
    return this.#change('hide', nameOf(name));
  }

  show(name) {
    return this.#change('show', nameOf(name));
  }

  protect(name) {
    return this.#change('protect', nameOf(name));
  }

  release(name) {
    return this.#change('release', nameOf(name));
  }

  gather(name) {
    return this.#change('gather', nameOf(name));
  }

  #change(name, ...given) {
    return this.#changeSectors(...this.#make(name, ...given), WHOLE_CHANGE);
  }

  // The list that a call filled, and how many sectors it names.
  #make(name, ...given) {
    const list = new Uint8Array(LIST_LENGTH);
    return [list, this.#ask(name, ...given, list).value];
  }

  // After a change of what is seen. One that alters no sector leaves readers where they are.
  #changeSectors(list, many, unit) {
    this.#list();
    if (many > 0) this.#changes++;
    return this.#sectors(list, many, unit);
  }

  // The sectors of a list, with the bytes that they hold now: later changes do not alter them.
  #sectors(list, many, unit) {
    const image = this.#lent();
    const sectors = Array.from({ length: many }, (_, i) => {
      const number = list[2 * i] + 256 * list[2 * i + 1];
      const place = placeOf(number);
      return { number, place, track: trackOf(number), sector: sectorOf(number), bytes: image.slice(place, place + SECTOR_LENGTH) };
    });
    // Where there is nothing to write none is counted.
    const mine = many === 0 ? this.#writes : ++this.#writes;
    const order = {
      skips: () => this.#stored < mine - 1,
      written: () => this.#stored >= mine,
      done: () => { this.#stored = mine; },
    };
    return new Sectors(sectors, order, unit);
  }
}

// ---- Reports

const REPORT = { disks: [0, 33], kinds: [33, 97], fileSectors: 97, freeSectors: 98, classes: [99, 111] };

export class Report {
  #library;
  #bytes = new Uint8Array(REPORT_LENGTH);

  constructor(library, bytes) {
    this.#library = library;
    if (bytes === undefined) return;
    if (bytesOf(bytes, 'a report').length !== REPORT_LENGTH) throw new RangeError(`a report has ${REPORT_LENGTH} bytes`);
    this.#bytes.set(bytesOf(bytes, 'a report'));
  }

  get bytes() {
    return this.#bytes.slice();
  }

  add(image) {
    const bytes = image instanceof Disk ? image.image : bytesOf(image, 'an image');
    return accepted(this.#library.calls.reportAdd(bytes, this.#bytes)).value;
  }

  join(other) {
    return accepted(this.#library.calls.reportJoin(this.#bytes, other.bytes)).value;
  }

  #number(place) {
    return new DataView(this.#bytes.buffer).getUint32(4 * place, true);
  }

  #numbers([from, to]) {
    return Array.from({ length: to - from }, (_, i) => this.#number(from + i));
  }

  #sum(places) {
    return this.#numbers(places).reduce((sum, number) => sum + number, 0);
  }

  get disks() {
    return this.#sum(REPORT.disks);
  }

  get accepted() {
    return this.#number(0);
  }

  refused(number) {
    return number >= 1 && number < REPORT.disks[1] ? this.#number(number) : 0;
  }

  get refusals() {
    const rows = this.#numbers(REPORT.disks).map((disks, number) => ({ number, words: words(number), disks }));
    return rows.filter(({ number, disks }) => number > 0 && disks > 0);
  }

  get files() {
    return this.#sum(REPORT.kinds);
  }

  get kinds() {
    const rows = this.#numbers(REPORT.kinds).map((files, kind) => ({ kind, words: kindWords(kind), files }));
    return rows.filter(({ files }) => files > 0);
  }

  get fileSectors() {
    return this.#number(REPORT.fileSectors);
  }

  get freeSectors() {
    return this.#number(REPORT.freeSectors);
  }

  // Files by how many sectors they have: 0, 1, 2 to 3, 4 to 7, .., 1,024 and more.
  get classes() {
    const first = (c) => (c === 0 ? 0 : 2 ** (c - 1));
    const all = this.#numbers(REPORT.classes);
    return all.map((files, c) => ({ from: first(c), to: c + 1 < all.length ? first(c + 1) - 1 : null, files }));
  }
}

// ---- The library

export class Varnucht {
  constructor(module) {
    const { exports } = new WebAssembly.Instance(module);
    this.memory = new Memory(exports);
    this.calls = callsOf(exports, this.memory);
    Object.freeze(this);
  }

  open(image) {
    return new Disk(this, image);
  }

  check(image) {
    accepted(this.calls.check(bytesOf(image, 'an image')));
  }

  checkRelease(image) {
    accepted(this.calls.checkRelease(bytesOf(image, 'an image')));
  }

  // A raw sector of the image in drive 1 or 2, whatever the images hold.
  sector(one, two, drive, track, sector) {
    const [first, second] = [bytesOf(one, 'an image'), bytesOf(two, 'an image')];
    const { value } = accepted(this.calls.sector(first, second, drive, track, sector));
    return (drive === 1 ? first : second).slice(value, value + SECTOR_LENGTH);
  }

  report(bytes) {
    return new Report(this, bytes);
  }
}

// ---- Loading

const inNode = typeof process === 'object' && typeof process.versions?.node === 'string';

async function fetched(url) {
  if (inNode && url.protocol === 'file:') return (await import('node:fs/promises')).readFile(url);
  const response = await fetch(url);
  if (!response.ok) throw new Error(`${url} cannot be loaded: status ${response.status}`);
  return response.arrayBuffer();
}

// The WebAssembly beside this module; where there are no vectors, that which was compiled without.
async function beside() {
  const bytes = await fetched(new URL('varnucht.wasm', import.meta.url));
  return WebAssembly.validate(bytes) ? bytes : fetched(new URL('varnucht-plain.wasm', import.meta.url));
}

export async function load(source) {
  const given = source ?? (await beside());
  if (given instanceof WebAssembly.Module) return new Varnucht(given);
  const bytes = given instanceof URL ? await fetched(given) : bytesOf(given, 'the WebAssembly');
  return new Varnucht(await WebAssembly.compile(bytes));
}
