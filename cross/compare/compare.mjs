// driver.c in node, over the module in js/: compare.mjs DRIVER.wasm VARNUCHT.wasm IMAGE ROUNDS
//
// The driver is compiled for wasm32 and has a memory of its own. Each call that it makes is handed to the module: in turn with its
// bytes as they are, which the module copies in and out, and laid into the library's own memory, between margins that no call
// may touch.
import { readFileSync, writeSync } from 'node:fs';
import { signatures, text } from './header.mjs';
import { load } from '../../js/varnucht.js';

const [driver, wasm, image, rounds] = process.argv.slice(2);
const varnucht = await load(readFileSync(wasm));
const MARGIN = 64, PAINT = 0xc3;
// Taken once, so that the memory does not grow later and leave the views stale.
const ROOM = 4_000_000;
const base = varnucht.memory.take(ROOM);

// Lays the bytes into the library's memory, has the call made there, and copies back what may be changed.
function inside(call, kinds, given) {
  const room = varnucht.memory.view(base, ROOM);
  let at = 0;
  const laid = given.map((value, i) => {
    if (kinds[i] === 'number') return value;
    room.fill(PAINT, at, at + MARGIN);
    at += MARGIN;
    const view = room.subarray(at, at + value.length);
    view.set(value);
    at += value.length;
    room.fill(PAINT, at, at + MARGIN);
    return view;
  });
  const answer = call(...laid);
  for (const [i, view] of laid.entries()) {
    if (kinds[i] === 'number') continue;
    const from = view.byteOffset - base;
    const margins = [...room.subarray(from - MARGIN, from), ...room.subarray(from + view.length, from + view.length + MARGIN)];
    if (margins.some((byte) => byte !== PAINT)) throw new Error('a call wrote outside of what it was lent');
    if (kinds[i] === 'lent') given[i].set(view);
    else if (Buffer.compare(given[i], view) !== 0) throw new Error('a call changed what is only read');
  }
  return answer;
}

let memory, turn = 0;
const imports = Object.fromEntries(signatures(text).map(({ name, js, kinds }) => [
  `varnucht_${name}`,
  (...words) => {
    const given = kinds.map((kind) => (kind === 'number' ? words.shift() >>> 0
      : new Uint8Array(memory.buffer, words.shift() >>> 0, Number(words.shift()))));
    const call = varnucht.calls[js];
    const { refusal, slot, value, free } = turn++ % 2 ? inside(call, kinds, given) : call(...given);
    return BigInt(refusal) + (BigInt(slot) << 8n) + (BigInt(value) << 24n) + (BigInt(free) << 48n);
  },
]));

let said = '';
const say = (at, length) => { said += Buffer.from(memory.buffer, at, length).toString('latin1'); };
const { exports } = new WebAssembly.Instance(new WebAssembly.Module(readFileSync(driver)), { env: { ...imports, say } });
memory = exports.memory;
new Uint8Array(memory.buffer).set(readFileSync(image), exports.sample_bytes());
const status = exports.compare(Number(rounds));
writeSync(1, said);
process.exitCode = status;
