// What the page's modules do by themselves, without a browser: how far back can be gone, and names of files.
import assert from 'node:assert/strict';
import { IMAGE_LENGTH, Name } from '../../js/varnucht.js';
import { fileNameOf, stampedName } from '../src/format.mjs';
import { History, sameBytes } from '../src/history.mjs';

// As many changes are kept as have room, and the oldest are given up. Each is undone and redone byte for byte.
const history = new History();
const images = [new Uint8Array(IMAGE_LENGTH)];
for (let i = 1; i <= 70; i++) {
  images.push(images.at(-1).map((byte, at) => (at < 20480 ? byte : i)));
  history.record(`change ${i}`, images.at(-2), images.at(-1));
}
const kept = Math.floor((48 << 20) / (IMAGE_LENGTH - 20480));
const image = images.at(-1).slice();
for (let i = 70; i > 70 - kept; i--) {
  assert.equal(history.undo(image), `change ${i}`);
  assert.ok(sameBytes(image, images[i - 1]));
}
assert.deepEqual([history.last, history.undo(image), history.next], [null, null, `change ${71 - kept}`]);
for (let i = 71 - kept; i <= 70; i++) assert.equal(history.redo(image), `change ${i}`);
assert.ok(sameBytes(image, images[70]) && history.next === null);
history.undo(image);
history.record('another', image, images[0]);
assert.deepEqual([history.last, history.next], ['another', null]);
history.record('none', images[0], images[0]);
assert.equal(history.last, 'another');

// No two names of one disk become one, also where capitals do not count, and every sign in them is harmless.
const seen = new Map();
const capitals = (bytes) => String(bytes.map((byte) => (byte >= 97 && byte <= 122 ? byte - 32 : byte)));
for (let first = 1; first < 256; first++) {
  for (let second = 0; second < 256; second++) {
    const name = new Name(Uint8Array.of(first, second));
    const text = fileNameOf(name);
    assert.match(text, /^[A-Za-z0-9_+,=@#&()!~'%-]+$/);
    const same = seen.get(text.toLowerCase()) ?? capitals(name.bytes);
    assert.equal(same, capitals(name.bytes), text);
    seen.set(text.toLowerCase(), same);
  }
}
const named = { 'MY NOTES': 'MY NOTES', 'a.b': 'a.b', '.hidden': '%2Ehidden', 'end.': 'end%2E', nul: '%6Eul', 'Com1.x': '%43om1.x', 'a/b': 'a%2Fb', '%41': '%2541' };
for (const [name, text] of Object.entries(named)) assert.equal(fileNameOf(new Name(name)), text);

const now = new Date(2026, 0, 2, 3, 4, 5);
const given = new Set();
for (const name of ['x 2026-01-02 03.04.05.DSK', 'x 2026-01-02 03.04.05 2.DSK', 'x 2026-01-02 03.04.05 3.DSK']) {
  assert.equal(stampedName('x 2025-12-31 23.59.59.DSK', given, now), name);
  given.add(name);
}
assert.equal(stampedName('disk', given, now), 'disk 2026-01-02 03.04.05.mgt');
