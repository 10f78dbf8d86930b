// An image on the shelf: accepted, as a disk that can be changed, or refused, as the bytes it came with.
import { IMAGE_LENGTH, Refused } from '../../js/varnucht.js';
import { History, sameBytes } from './history.mjs';

export class Item {
  #library;
  #stored = null; // the image as it is stored somewhere, where that is not as it is now

  constructor(library, label, bytes, handle = null) {
    this.#library = library;
    this.label = label;
    this.handle = handle; // the file that it can be saved back to
    this.there = handle && bytes; // what that file held when it was read or written last
    this.history = new History();
    this.disk = null;
    this.refusal = null;
    this.raw = null;
    try {
      this.disk = library.open(bytes);
    } catch (error) {
      if (!(error instanceof Refused)) throw error;
      this.refusal = error;
      this.raw = bytes;
    }
  }

  get changed() {
    return this.#stored !== null;
  }

  // Whether the file that it can be saved back to holds another image, as it does too after a change that was only downloaded.
  get ahead() {
    return this.handle !== null && !sameBytes(this.there, this.image);
  }

  get image() {
    return this.disk ? this.disk.image : this.raw;
  }

  // One raw sector, whatever the disk holds. Of an image of another length the bytes that are there.
  sector(track, sector, number) {
    if (this.disk) return this.disk.sector(track, sector);
    if (this.raw.length === IMAGE_LENGTH) return this.#library.sector(this.raw, this.raw, 1, track, sector);
    return this.raw.slice(512 * number, 512 * number + 512);
  }

  // Makes a change, which the library may refuse; then nothing has changed.
  change(what, act) {
    const before = this.disk.image;
    const done = act(this.disk);
    const after = this.disk.image;
    this.history.record(what, before, after);
    this.#moved(before, after);
    return done;
  }

  undo() {
    return this.#back((image) => this.history.undo(image));
  }

  redo() {
    return this.#back((image) => this.history.redo(image));
  }

  // This image is stored somewhere now.
  stored(image) {
    this.#stored = sameBytes(image, this.image) ? null : image;
  }

  close() {
    this.disk?.close();
  }

  #back(exchange) {
    const before = this.disk.image;
    const after = before.slice();
    const what = exchange(after);
    if (what === null) return null;
    const disk = this.#library.open(after);
    this.disk.close();
    this.disk = disk;
    this.#moved(before, after);
    return what;
  }

  #moved(before, after) {
    if (sameBytes(before, after)) return;
    this.#stored ??= before;
    if (sameBytes(this.#stored, after)) this.#stored = null;
  }
}

// The bytes of a chosen file: one more than a disk has, so that a longer one is seen to be longer, and no more are read.
export const bytesOfFile = async (file) => new Uint8Array(await file.slice(0, IMAGE_LENGTH + 1).arrayBuffer());
