// page/make lays the modules end to end and leaves out their imports. So that the imports are true all the same: each names what is
// there, each name is used, and no module uses a name of another without saying so.
import assert from 'node:assert/strict';
import { readFileSync, readdirSync } from 'node:fs';

const folder = new URL('../src/', import.meta.url);
const library = readFileSync(new URL('../../js/varnucht.js', import.meta.url), 'utf8');
const sources = new Map(readdirSync(folder).map((name) => [`./${name}`, readFileSync(new URL(name, folder), 'utf8')]));
const exportsOf = (text) => [...text.matchAll(/^export (?:async )?(?:const|class|function) (\w+)/gm)].map((match) => match[1]);
const offered = new Map([...sources].map(([name, text]) => [name, exportsOf(text)]));
offered.set('../../js/varnucht.js', exportsOf(library));

// Without comments, and of strings only what is code in them.
const bare = (text) => text.replace(/^import .*$/gm, '').replace(/(^|[^:'"`\\])\/\/.*$/gm, '$1').replace(/'(?:[^'\\\n]|\\.)*'/g, "''");
const uses = (text, name) => new RegExp(`(?<![.\\w$])${name}(?![\\w$])(?!:)`).test(text);

const given = new Set();
for (const [name, text] of sources) {
  const imported = new Map();
  for (const [, list, from] of text.matchAll(/^import \{ (.*) \} from '(.*)';$/gm)) {
    for (const each of list.split(', ')) {
      assert.ok(offered.get(from)?.includes(each), `${name}: ${from} has no ${each}`);
      imported.set(each, from);
      given.add(`${from} ${each}`);
    }
  }
  const code = bare(text);
  for (const each of imported.keys()) assert.ok(uses(code, each), `${name} imports ${each} and does not use it`);
  const own = new Set([...code.matchAll(/(?:const|let|class|function) (\w+)/g)].map((match) => match[1]));
  for (const [from, list] of offered) {
    if (from === name) continue;
    for (const each of list) {
      const known = imported.has(each) || own.has(each) || new RegExp(`[({,\\[] ?${each}(?: = [^,)]*)?(?=[,})\\]])`).test(code);
      assert.ok(known || !uses(code, each), `${name} uses ${each} of ${from} and does not import it`);
    }
  }
  // Words that make markup or code of text.
  for (const word of ['innerHTML', 'outerHTML', 'insertAdjacentHTML', 'document\\.write', 'DOMParser', 'eval', 'Function', 'fetch', 'XMLHttpRequest', 'WebSocket', 'sendBeacon']) {
    assert.doesNotMatch(code, new RegExp(`\\b${word}\\b`), name);
  }
}
for (const [name, list] of offered) {
  if (sources.has(name)) for (const each of list) assert.ok(given.has(`${name} ${each}`), `${name} exports ${each} for nobody`);
}
