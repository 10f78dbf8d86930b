// What can be undone: of each change the sectors that it altered, with the bytes that are not in the image now. To undo and to redo are
// the same step, an exchange of bytes.
import { SECTOR_LENGTH, SECTORS, placeOf } from '../../js/varnucht.js';

// Kept for one disk: 64 changes of the longest files, or ten thousands of marks. The oldest is given up beyond that.
const MOST_BYTES = 48 << 20;

export const sameBytes = (one, two) => one.length === two.length && one.every((byte, i) => byte === two[i]);

const sectorAt = (image, number) => image.subarray(placeOf(number), placeOf(number) + SECTOR_LENGTH);

export class History {
  #back = [];
  #forth = [];

  get last() {
    return this.#back.at(-1)?.what ?? null;
  }

  get next() {
    return this.#forth.at(-1)?.what ?? null;
  }

  // A change was made. What had been undone cannot be redone any more.
  record(what, before, after) {
    const numbers = Array.from({ length: SECTORS }, (_, number) => number);
    const altered = numbers.filter((number) => !sameBytes(sectorAt(before, number), sectorAt(after, number)));
    if (altered.length === 0) return;
    this.#back.push({ what, sectors: altered.map((number) => ({ number, bytes: sectorAt(before, number).slice() })) });
    this.#forth = [];
    let kept = this.#back.reduce((sum, { sectors }) => sum + sectors.length, 0);
    while (kept * SECTOR_LENGTH > MOST_BYTES) kept -= this.#back.shift().sectors.length;
  }

  // Each alters the image, and gives what was undone or redone.
  undo(image) {
    return this.#exchange(image, this.#back, this.#forth);
  }

  redo(image) {
    return this.#exchange(image, this.#forth, this.#back);
  }

  #exchange(image, from, to) {
    const step = from.pop();
    if (step === undefined) return null;
    const sectors = step.sectors.map(({ number, bytes }) => {
      const now = sectorAt(image, number).slice();
      sectorAt(image, number).set(bytes);
      return { number, bytes: now };
    });
    to.push({ what: step.what, sectors });
    return step.what;
  }
}
