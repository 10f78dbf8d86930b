// Holds the table of README.md, and what the header says of all targets, to what was measured: stack.mjs FOLDER. Where they differ,
// the table as it should be is printed.
import { readFileSync } from 'node:fs';
import { text as header } from './header.mjs';

const columns = ['x86_64', 'aarch64', 'ios', 'wasm32', 'wasm32-plain'];
const measured = columns.map((column) => {
  const lines = readFileSync(`${process.argv[2]}/stack.${column}`, 'utf8').trim().split('\n');
  return new Map(lines.map((line) => line.split(' ')).map(([call, bytes]) => [call, Number(bytes)]));
});
const readme = readFileSync(new URL('../../README.md', import.meta.url), 'utf8');
const rows = [...readme.matchAll(/^\| `([a-z_]+)` \| ([\d,]+) \| ([\d,]+) \| ([\d,]+) \| ([\d,]+) \| ([\d,]+) \|$/gm)];
const said = new Map(rows.map(([, call, ...figures]) => [call, figures.map((figure) => Number(figure.replaceAll(',', '')))]));

// What calls the library takes a few bytes too, which another compiler of C lays otherwise.
const ROOM = 64;
const calls = [...measured[0].keys()];
const right = said.size === calls.length && measured.every((each) => each.size === calls.length) && calls.every((call) =>
  said.has(call) && measured.every((each, i) => each.get(call) <= said.get(call)[i] && said.get(call)[i] <= each.get(call) + ROOM));

// "on none is it 8 KiB, but of varnucht_tree less than .. on iOS and less than .. on other phones"
const [, most, ios, phones] = /on none is it (\d+) KiB, but of varnucht_tree less than (\d+) KiB on iOS and less than (\d+) KiB on other phones/
  .exec(header.replace(/\n \*/g, '').replace(/\s+/g, ' ')).map((number) => 1024 * Number(number));
const limits = calls.every((call) => measured.every((each, i) => {
  const limit = call !== 'tree' ? most : { aarch64: phones, ios }[columns[i]] ?? Infinity;
  return each.get(call) < limit;
}));
if (!limits) console.log('the header says less of the stack than was measured');
if (!right || !limits) {
  for (const call of calls) {
    console.log(`| \`${call}\` | ${measured.map((each) => (each.get(call) ?? 0).toLocaleString('en')).join(' | ')} |`);
  }
  process.exitCode = 1;
}
