// What each call takes of the stack by the compiler's own figures: frames.mjs FRAMES.su DISASSEMBLY
//
// The frames of a function and of what it calls, the deepest way. No call leads back to itself but that of a tree, which is made once for
// each directory around: 255 at most, and once for the root.
import { readFileSync } from 'node:fs';

const [frames, code] = process.argv.slice(2).map((path) => readFileSync(path, 'utf8'));
const DEEPEST = 256;
const plain = (name) => name.replace(/^(_|\.text\.)/, '').replace(/"/g, '');
const own = new Map(frames.trim().split('\n').map((line) => {
  const [name, bytes, how] = line.slice(line.indexOf('.ll:') + 4).split('\t');
  if (how !== 'static') throw new Error(`a frame without a fixed size: ${line}`);
  return [plain(name), Number(bytes)];
}));

// Who calls whom, by the places that the linker fills in, and by those that need no linker.
const callees = new Map([...own.keys()].map((name) => [name, new Set()]));
let inside;
for (const line of code.split('\n')) {
  const label = /^[0-9a-f]+ <(.*)>:$/.exec(line);
  const call = /(?:R_AARCH64_(?:CALL26|JUMP26)|ARM64_RELOC_BRANCH26)\s+(.*)$|\sbl\s+0x[0-9a-f]+ <([^+]*)>$/.exec(line);
  if (label && own.has(plain(label[1]))) inside = plain(label[1]);
  else if (call && own.has(plain(call[1] ?? call[2]))) callees.get(inside).add(plain(call[1] ?? call[2]));
}

const sums = new Map();
function sum(name, around = []) {
  if (around.includes(name)) throw new Error(`a call that leads back to itself, by ${around.join(', ')}`);
  if (!sums.has(name)) {
    const others = [...callees.get(name)].filter((callee) => callee !== name);
    const times = callees.get(name).has(name) ? DEEPEST : 1;
    sums.set(name, times * own.get(name) + Math.max(0, ...others.map((callee) => sum(callee, [...around, name]))));
  }
  return sums.get(name);
}
for (const name of [...own.keys()].filter((each) => each.startsWith('varnucht_')).sort()) {
  console.log(name.slice('varnucht_'.length), sum(name));
}
