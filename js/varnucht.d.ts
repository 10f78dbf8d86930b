/**
 * Disk images of the SAM Coupé, in node and in pages.
 *
 * The work is done by `varnucht.wasm`, compiled from the library that is proved correct; README.md says what that means. This module
 * copies bytes in and out and makes an error of a refusal.
 *
 * What a wrong argument does: a request that the rules refuse throws {@link Refused}, with the number, the slot and the words of the
 * rules, and then nothing has changed. What is no bytes, no number or no name at all throws a `TypeError`. A number that is not whole
 * or not 0 to 4,294,967,295, bytes that may be changed and overlap others of the same call, and bytes that are more than the
 * library's memory can hold throw a `RangeError`. Nothing that is handed to this module makes the WebAssembly trap.
 */

export const IMAGE_LENGTH: 819200;
export const SECTOR_LENGTH: 512;
export const SECTORS: 1600;
/** Free on an empty disk with four directory tracks, where they are most. */
export const DATA_SECTORS: 1560;
export const NAME_LENGTH: 10;
/** The longest body on an empty disk. */
export const LONGEST_BODY: 795591;
/** The record of a recording has so many bytes. */
export const RECORD_LENGTH: 2048;
export const REPORT_LENGTH: 496;
/** A report holds at most so many disks. */
export const MOST_DISKS: 65535;

/**
 * Loads the library. Without a source it takes `varnucht.wasm` from beside this module, by the file system in node and by `fetch` in a
 * page, and `varnucht-plain.wasm` where there are no vectors. A page that carries the library inside gives its bytes.
 */
export function load(source?: Uint8Array | ArrayBuffer | WebAssembly.Module | URL): Promise<Varnucht>;

/** The library, with a memory of its own. One is enough for any number of disks. */
export class Varnucht {
  constructor(module: WebAssembly.Module);
  /** Opens a disk: copies the image in, checks and lists it. Refused 1 to 11, 24 and 25. */
  open(image: Uint8Array | ArrayBuffer): Disk;
  /** Whether the image is an accepted disk. Refused 1 to 11, 24 and 25. */
  check(image: Uint8Array | ArrayBuffer): void;
  /** Whether it is one without waste sectors, before it goes out: refused 22 too. */
  checkRelease(image: Uint8Array | ArrayBuffer): void;
  /** A copy of one raw sector of the image in drive 1 or 2, whatever they hold. Refused 1 and 21. */
  sector(one: Uint8Array | ArrayBuffer, two: Uint8Array | ArrayBuffer, drive: number, track: number, sector: number): Uint8Array;
  /** A report over no disk, or the one with these bytes. */
  report(bytes?: Uint8Array | ArrayBuffer): Report;
  /** The calls of varnucht.h themselves, on bytes. */
  readonly calls: Calls;
  /** The library's memory. Bytes that lie in it are lent where they lie; whenever it grows, every view of it is stale. */
  readonly memory: {
    readonly buffer: ArrayBuffer;
    view(at: number, length: number): Uint8Array;
    take(length: number): number;
    give(at: number): void;
  };
}

/** The four parts of the number that a call answers. `refusal` is 0 where it accepts. */
export interface Answer {
  refusal: number;
  slot: number;
  value: number;
  free: number;
}

/**
 * The calls of varnucht.h, which says all about them. Bytes are copied into the library's memory, and those that may be changed back.
 * A refusal is answered here and not thrown.
 */
export interface Calls {
  check(image: Uint8Array): Answer;
  checkRelease(image: Uint8Array): Answer;
  list(image: Uint8Array, out: Uint8Array): Answer;
  read(image: Uint8Array, name: Uint8Array, out: Uint8Array): Answer;
  open(image: Uint8Array, name: Uint8Array): Answer;
  next(image: Uint8Array, sector: number, offset: number, left: number, out: Uint8Array): Answer;
  start(image: Uint8Array, name: Uint8Array): Answer;
  tree(image: Uint8Array, name: Uint8Array, slots: Uint8Array): Answer;
  sector(one: Uint8Array, two: Uint8Array, drive: number, track: number, sector: number): Answer;
  reportAdd(image: Uint8Array, report: Uint8Array): Answer;
  reportJoin(report: Uint8Array, other: Uint8Array): Answer;
  save(image: Uint8Array, kind: number, name: Uint8Array, page: number, offset: number, exec: Uint8Array, info: Uint8Array,
    body: Uint8Array, list: Uint8Array): Answer;
  erase(image: Uint8Array, name: Uint8Array, list: Uint8Array): Answer;
  eraseMany(image: Uint8Array, names: Uint8Array, answers: Uint8Array, list: Uint8Array): Answer;
  rename(image: Uint8Array, name: Uint8Array, newName: Uint8Array, list: Uint8Array): Answer;
  hide(image: Uint8Array, name: Uint8Array, list: Uint8Array): Answer;
  show(image: Uint8Array, name: Uint8Array, list: Uint8Array): Answer;
  protect(image: Uint8Array, name: Uint8Array, list: Uint8Array): Answer;
  release(image: Uint8Array, name: Uint8Array, list: Uint8Array): Answer;
  gather(image: Uint8Array, name: Uint8Array, list: Uint8Array): Answer;
  recordOpen(image: Uint8Array, kind: number, name: Uint8Array, page: number, offset: number, exec: Uint8Array, info: Uint8Array,
    record: Uint8Array): Answer;
  recordAdd(image: Uint8Array, piece: Uint8Array, record: Uint8Array, list: Uint8Array): Answer;
  recordClose(image: Uint8Array, record: Uint8Array, list: Uint8Array): Answer;
}

/** A refused request. Nothing that it was about has changed. */
export class Refused extends Error {
  constructor(number: number, slot?: number);
  /** The number of the rules' table. */
  readonly number: number;
  /** The slot that the reason was found at; null where it is in none. */
  readonly slot: number | null;
  /** The reason in the words of the rules. */
  readonly words: string;
}

/** A refusal in the words of the rules; 0 is "accepted". */
export function words(number: number): string;

/** A name as it is given: text, which is taken as UTF-8, or bytes. */
export type NameLike = string | Uint8Array | Name;

/** A name that can be asked for: 1 to 10 bytes, the first not 0, filled with spaces to ten. Refused 12. */
export class Name {
  constructor(given: NameLike);
  /** Why this cannot be a name, to be said of it: "has 11 bytes, and a name has 1 to 10"; null where it can. */
  static unusable(given: NameLike): string | null;
  /** All ten bytes. */
  readonly bytes: Uint8Array;
  /** The bytes without the spaces at the end. */
  readonly trimmed: Uint8Array;
  /** Whether it finds the same file: capitals or not. */
  equals(other: NameLike): boolean;
  /** As text, with the escapes of {@link escape}. */
  toString(): string;
}

/** A name that a file can be given: bytes 32 to 126 alone, the first not 32. Refused 12. */
export class NewName extends Name {}

/** Bytes as text: those outside 32 to 126, and a space in front, as `\xHH`, and a backslash as two. */
export function escape(bytes: Iterable<number>): string;
/** The bytes that such a text stands for. */
export function unescape(text: string): Uint8Array;

export const Kind: {
  readonly ZX_BASIC: 1;
  readonly ZX_NUMERIC_ARRAY: 2;
  readonly ZX_STRING_ARRAY: 3;
  readonly ZX_GENERIC: 4;
  readonly BASIC: 16;
  readonly NUMERIC_ARRAY: 17;
  readonly STRING_ARRAY: 18;
  readonly CODE: 19;
  readonly SCREEN: 20;
  readonly DIRECTORY: 21;
};
/** The manual's word for a kind, or `kind N`. */
export function kindWords(kind: number): string;
/** Whether files of the kind can be saved: 16 to 20. */
export function isCarried(kind: number): boolean;
/** Whether it is one of the Spectrum's that can be read: 1 to 4. */
export function isSpectrum(kind: number): boolean;

/** A start page, 0 to 31, and an offset, 32,768 to 49,151. Refused 14. */
export class Start {
  constructor(page: number, offset: number);
  readonly page: number;
  readonly offset: number;
  readonly address: number;
}

/** The place of a sector in the image, its track and which sector of the track it is, by its number, 0 to 1,599. */
export function placeOf(number: number): number;
export function trackOf(number: number): number;
export function sectorOf(number: number): number;
/** The number of a track's sector. Refused 21. */
export function sectorNumber(track: number, sector: number): number;

/** How large a directory is: 4 to 39 tracks. */
export class Directory {
  constructor(tracks?: number);
  /** As slot 1 of an image says. Refused 24. */
  static of(image: Uint8Array): Directory;
  readonly tracks: number;
  readonly slots: number;
  readonly sectors: number;
  readonly dataSectors: number;
  /** Whether a sector, by its number, is one of its own. */
  holds(number: number): boolean;
  /** The number of the sector that a slot lies in, in the directory of whatever size. */
  static sectorOfSlot(slot: number): number;
}

/** The image of a new disk without a file, with 4 to 39 directory tracks. */
export function blank(tracks?: number): Uint8Array;

/** A live slot: a file as the directory describes it, or a subdirectory. */
export class Entry {
  readonly slot: number;
  /** The slot's 256 bytes. */
  readonly bytes: Uint8Array;
  readonly hidden: boolean;
  readonly protected: boolean;
  readonly kind: number;
  readonly isDirectory: boolean;
  readonly name: Name;
  /** The code of a directory; null for a file. */
  readonly code: number | null;
  /** The code of the directory that it is in, 0 for the root. */
  readonly parentCode: number;
  readonly sectorCount: number;
  /** The numbers of its sectors, in the order of the map. */
  readonly sectors: number[];
  /** The length of its body; null for a kind that is not carried: {@link Disk.length} knows that of kinds 1 to 4. */
  readonly length: number | null;
  /** The least number of sectors that the length needs; null for a kind that is not carried. */
  readonly leastSectors: number | null;
  readonly start: Start | null;
  readonly execution: Uint8Array;
  readonly information: Uint8Array;
}

/** The files of a disk, by rising slot, and what is free. */
export class Listing {
  readonly entries: readonly Entry[];
  /** How many data sectors are free. */
  readonly free: number;
  readonly directory: Directory;
  readonly freeSlots: number;
  /** The length of the longest body that can be saved; null where no sector or no slot is free. */
  readonly room: number | null;
  /** The file of this name, capitals or not. */
  find(name: NameLike): Entry | null;
  /** The directory that a file is in: null for the root, undefined where no directory has that code. */
  within(entry: Entry): Entry | null | undefined;
}

/** What lies beneath a directory or the root, each directory directly followed by what lies beneath it. */
export class Tree {
  readonly length: number;
  readonly all: Branch[];
  readonly branches: Branch[];
}

/** A file, or a directory with what lies beneath it. */
export class Branch {
  readonly entry: Entry;
  readonly depth: number;
  /** How many files and directories lie beneath it, at whatever depth. */
  readonly length: number;
  readonly branches: Branch[];
}

/** A file to record: all that a save asks for but its body. */
export interface Particulars {
  /** 16 to 20; refused 13. */
  kind: number;
  name: NameLike;
  /** Refused 14 where it is out of range. */
  start: { page: number; offset: number };
  /** Three bytes: where the SAM starts the file; without them it does not. */
  execution?: Iterable<number>;
  /** Up to eleven bytes, whose meaning hangs on the kind. */
  information?: Iterable<number>;
}

/** A file to save. */
export interface NewFile extends Particulars {
  body: Uint8Array | ArrayBuffer;
}

export interface ChangedSector {
  number: number;
  /** Where its bytes belong in the image: 512 × number. */
  place: number;
  track: number;
  sector: number;
  /** Its 512 bytes. */
  bytes: Uint8Array;
}

/**
 * The sectors that a change altered, in the order in which they are to be written, with the bytes that they had directly after it. The
 * change is made in the disk's memory. A copy elsewhere follows when they are written there, in this order, each whole: cut
 * short anywhere, it is still the old disk until the last one is written. Those of {@link Disk.eraseMany} are a change of their own
 * each, and those of a recording's piece ({@link Recording.add}) change nothing that is seen.
 */
export class Sectors implements Iterable<ChangedSector> {
  readonly length: number;
  readonly numbers: number[];
  [Symbol.iterator](): Iterator<ChangedSector>;
  /**
   * Writes them one after the other, each once `write` is done with the one before. Where it fails the rest is not tried, and
   * {@link WriteError} says how far it came; it may be tried again. Where an earlier change of the disk was not written whole by
   * this function, nothing is written.
   */
  writeTo(
    write: (place: number, bytes: Uint8Array, number: number) => void | Promise<void>,
    progress?: (written: number, of: number) => void,
  ): Promise<void>;
}

/** A change whose sectors are not all written. `cause` is what `write` threw. */
export class WriteError extends Error {
  readonly written: number;
  readonly of: number;
}

/** A file's body piece by piece. After a change of its disk it throws: open the file again. */
export class Reader {
  /** How many bytes are still to come. */
  readonly left: number;
  /** Puts the next bytes to the front: as many as there is room for or as are left. How many came. */
  read(out: Uint8Array): number;
  /** The rest in pieces of this length, the last one perhaps shorter. */
  pieces(length: number): Generator<Uint8Array>;
}

/**
 * A file that is saved while it is recorded: its body comes in pieces, and nobody needs to know before how long it will be. Nothing
 * is seen of it until it is closed: given up, or cut short anywhere, it leaves all files as they were. If nothing else changed the
 * disk, the closed one is that which a single save of the whole leaves, byte for byte.
 *
 * The disk may be changed in between, and two recordings may be open at once. Where that leaves no recording to go on with, the next
 * call is refused 30: open a new one then.
 */
export class Recording {
  /** Its record, 2,048 bytes however long it is, to be kept: {@link Disk.resume} takes it. */
  readonly bytes: Uint8Array;
  /**
   * Adds a piece of any length. Each sector after the first is to be written when a byte beyond it has come, so that often there is
   * none. Refused 19 where it does not fit, and 30; then the record is as before.
   */
  add(piece: Uint8Array | ArrayBuffer): Sectors;
  /**
   * Makes it a file: its last sector, its first and the directory's are to be written. Refused 30, 16 where a file got the name since,
   * and 18 where the last slot was taken since. The record stays as it is: where the writing was stopped, the disk that is opened anew
   * can be asked to close it again.
   */
  close(): Sectors;
}

/**
 * A disk that the library has accepted, with its listing. Its image lies in the library's memory until the disk is closed, or nobody
 * has it any more. Every change leaves an accepted disk.
 */
export class Disk {
  constructor(library: Varnucht, image: Uint8Array | ArrayBuffer);
  /** A copy of the image as it is now. */
  readonly image: Uint8Array;
  readonly listing: Listing;
  readonly directory: Directory;
  /** The disk's name as text, with escapes; null where it has none. */
  readonly name: string | null;
  /** Gives its memory back. The disk cannot be used any more. */
  close(): void;
  /** Another disk with the same image. */
  clone(): Disk;
  /** Refused 22 where a file has waste sectors. */
  checkRelease(): void;
  /** A copy of one raw sector. Refused 21. */
  sector(track: number, sector: number): Uint8Array;
  /** A file's body. Refused 12, 13 and 15. */
  read(name: NameLike): Uint8Array;
  /** The length of a file's body. Refused as `read` is. */
  length(name: NameLike): number;
  /** A reader at the first byte of a file's body. Refused as `read` is. */
  reader(name: NameLike): Reader;
  /** A file's start address. Refused 12, 13, 14 and 15. */
  start(name: NameLike): number;
  /** The numbers of a file's sectors in the order in which its bytes lie in them. Refused 12 and 15. */
  chain(name: NameLike): number[];
  /** Whether they are not those of consecutive map bits, in rising order. */
  isScattered(name: NameLike): boolean;
  /** What lies beneath a directory, or beneath the root. Refused 26 to 28, 12, 13 and 15. */
  tree(name?: NameLike | null): Tree;
  /** Saves a file. Refused 12, 13, 14, 16, 18 and 19. */
  save(file: NewFile): Sectors;
  /** Opens a recording of a file. Nothing is changed. Refused as a save with an empty body is. */
  record(file: Particulars): Recording;
  /** Goes on with a recording by its {@link Recording.bytes}, also after the disk was opened anew from where it is stored. */
  resume(record: Uint8Array | ArrayBuffer): Recording;
  /** Erases a file, or a directory that nothing is in. Refused 12, 15, 17 and 29. */
  erase(name: NameLike): Sectors;
  /** Erases the files of these names, one after the other. For each: null where it is done, or why not (15, 17, 29). */
  eraseMany(names: Iterable<NameLike>): { answers: (Refused | null)[]; sectors: Sectors };
  /** Gives a file another name. Refused 12, 15, 16 and 17. */
  rename(name: NameLike, newName: NameLike): Sectors;
  /** Mark a file. Refused 12 and 15. */
  hide(name: NameLike): Sectors;
  show(name: NameLike): Sectors;
  protect(name: NameLike): Sectors;
  release(name: NameLike): Sectors;
  /** Moves a scattered file to consecutive sectors; one that lies so already stays, and no sector is to be written. Refused 12, 13, 15 and 32. */
  gather(name: NameLike): Sectors;
}

/** A shelf of disks in numbers. */
export class Report {
  constructor(library: Varnucht, bytes?: Uint8Array | ArrayBuffer);
  /** Its 496 bytes, to be kept. */
  readonly bytes: Uint8Array;
  /** Adds a disk, accepted or refused: any bytes. How many disks there are then. Refused 31. */
  add(image: Uint8Array | ArrayBuffer | Disk): number;
  /** Joins another report to this one. Refused 31. */
  join(other: Report): number;
  readonly disks: number;
  readonly accepted: number;
  /** How many disks are refused with this number. */
  refused(number: number): number;
  readonly refusals: { number: number; words: string; disks: number }[];
  readonly files: number;
  readonly kinds: { kind: number; words: string; files: number }[];
  readonly fileSectors: number;
  readonly freeSectors: number;
  readonly classes: { from: number; to: number | null; files: number }[];
}
