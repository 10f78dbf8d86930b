// The calls as include/varnucht.h declares them.
import { readFileSync } from 'node:fs';

export const text = readFileSync(new URL('../../include/varnucht.h', import.meta.url), 'utf8');

// For each call its name, its name in JavaScript, and what each argument is: bytes that are only read, bytes that may be changed, or
// a number. A length goes with its bytes.
export function signatures(header) {
  const plain = header.replace(/\/\*[^]*?\*\//g, '');
  const kindOf = (argument) => {
    if (/^const uint8_t \*/.test(argument)) return 'read';
    if (/^uint8_t \*/.test(argument)) return 'lent';
    if (/^uint32_t /.test(argument)) return 'number';
    throw new Error(`an argument of another type: ${argument}`);
  };
  return [...plain.matchAll(/^uint64_t varnucht_(\w+)\(([^{;]*)\);/gm)].map(([, name, list]) => {
    const all = list.split(',').map((argument) => argument.trim().replace(/\s+/g, ' '));
    const kinds = all.filter((argument) => !argument.startsWith('varnucht_length ')).map(kindOf);
    return { name, js: name.replace(/_([a-z])/g, (_, letter) => letter.toUpperCase()), kinds };
  });
}

// What the header says that each call can refuse: the numbers behind "Refusals:" in the comment above it. Calls that stand together
// share one. 3 is given no more.
export function refusals(header) {
  const said = new Map();
  let numbers;
  for (const [, comment, call] of header.matchAll(/\/\*([^]*?)\*\/|^uint64_t varnucht_(\w+)\(/gm)) {
    if (call !== undefined) {
      said.set(call, numbers);
      continue;
    }
    const sentence = /Refusals: ([^.]*)\./.exec(comment.replace(/\n \*/g, ' ').replace(/\s+/g, ' '))?.[1];
    if (sentence === undefined) continue;
    const plain = sentence.replace(/\([^)]*\)/g, '').replace('1 to 11', '1, 2, 4, 5, 6, 7, 8, 9, 10, 11');
    const written = [...plain.matchAll(/\d+(,\d{3})*/g)].map(([number]) => number);
    numbers = [...new Set(written.filter((number) => !number.includes(',')).map(Number))];
  }
  return said;
}
