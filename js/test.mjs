// The tests of the module: node --expose-gc js/test.mjs FOLDER. cross/test has put into the folder what C says.
import assert from 'node:assert/strict';
import { execFileSync } from 'node:child_process';
import { readFileSync } from 'node:fs';
import { refusals, signatures, text as header } from '../cross/compare/header.mjs';
import * as module from './varnucht.js';

const { IMAGE_LENGTH, Kind, LONGEST_BODY, Name, NewName, RECORD_LENGTH, Refused, Start, WriteError, blank, escape, load, unescape, words } = module;
const folder = process.argv[2];
const file = (path) => readFileSync(new URL(`../${path}`, import.meta.url));
const varnucht = await load();
const sample = new Uint8Array(file('samples/sample.mgt'));
const START = { page: 1, offset: 32768 };
const code = (name, body) => ({ kind: Kind.CODE, name, start: START, body });
const bytes = (length, seed = 1) => Uint8Array.from({ length }, (_, i) => (seed + i * 7 + (i >> 8)) & 255);
const chunks = (body, length) => Array.from({ length: Math.ceil(body.length / length) }, (_, i) => body.subarray(i * length, (i + 1) * length));
// All that is seen of an image: what the directory says of each file, and its body.
const view = (image) => {
  const opened = varnucht.open(image);
  const said = opened.listing.entries.map((entry) => [...entry.bytes, ...opened.read(entry.name)]);
  opened.close();
  return JSON.stringify(said);
};
const refused = (number, slot, act) => assert.throws(act, (error) => {
  assert.ok(error instanceof Refused && error instanceof Error, String(error));
  assert.deepEqual([error.number, error.slot, error.words], [number, slot, words(number)]);
  assert.equal(error.message, `refusal ${number}${slot === null ? '' : ` at slot ${slot}`}: ${words(number)}`);
  return true;
});

const tests = {
  'the words are the header\'s'() {
    const lines = readFileSync(`${folder}/words.txt`, 'utf8').trimEnd().split('\n');
    assert.equal(lines.length, 256);
    lines.forEach((line, number) => assert.equal(line, `${number} ${words(number)}`));
  },

  'the words of the kinds are the crate\'s'() {
    const rows = [...file('host/src/kind.rs').toString().matchAll(/^ {4}\((\d+), "(.*)"\),$/gm)];
    assert.equal(rows.length, 20);
    for (const [, kind, text] of rows) assert.equal(module.kindWords(Number(kind)), text);
    assert.equal(module.kindWords(13), 'kind 13');
  },

  'the calls are the header\'s'() {
    const all = signatures(header);
    assert.deepEqual(Object.keys(varnucht.calls).sort(), all.map(({ js }) => js).sort());
    const fit = (kinds) => kinds.map((kind) => (kind === 'number' ? 0 : new Uint8Array(8)));
    for (const { js, kinds } of all) {
      const call = varnucht.calls[js];
      call(...fit(kinds));
      assert.throws(() => call(...fit(kinds), 0), TypeError);
      kinds.forEach((kind, i) => {
        const wrong = fit(kinds);
        wrong[i] = kind === 'number' ? new Uint8Array(8) : 0;
        assert.throws(() => call(...wrong), TypeError, `${js} ${i}`);
        // Bytes that are given twice tell which of them may be changed.
        kinds.forEach((other, j) => {
          if (j <= i || kind === 'number' || other === 'number') return;
          const twice = fit(kinds);
          twice[j] = twice[i].subarray(7, 8);
          if (kind === 'lent' || other === 'lent') assert.throws(() => call(...twice), RangeError, `${js} ${i} ${j}`);
          else call(...twice);
        });
      });
    }
  },

  'the driver counts what the header says that each call can refuse'() {
    const lines = readFileSync(`${folder}/said.x86_64`, 'utf8').split('\n').filter((line) => /^[a-z_]+ 0:/.test(line));
    const counted = new Map(lines.map((line) => line.split(' ')).map(([call, ...rows]) => [call, rows.map((row) => Number(row.split(':')[0]))]));
    counted.delete('erase_many_of_a_name');
    const said = refusals(header);
    assert.deepEqual([...counted.keys()].sort(), signatures(header).map(({ name }) => name).sort());
    for (const [call, numbers] of counted) {
      assert.deepEqual(numbers, [0, ...said.get(call)].sort((a, b) => a - b), call);
    }
  },

  'the WebAssembly has the calls and takes nothing'() {
    for (const name of ['varnucht', 'varnucht-plain']) {
      const wasm = new WebAssembly.Module(file(`js/${name}.wasm`));
      assert.deepEqual(WebAssembly.Module.imports(wasm), []);
      const calls = signatures(header).map((each) => `varnucht_${each.name}`);
      assert.deepEqual(WebAssembly.Module.exports(wasm).map((each) => each.name).sort(),
        ['__heap_base', '__stack_pointer', 'memory', ...calls].sort());
    }
  },

  'the types name what is there'() {
    const types = file('js/varnucht.d.ts').toString().replace(/\/\*[^]*?\*\//g, '');
    const named = [...types.matchAll(/^export (?:function|class|const) (\w+)/gm)].map((match) => match[1]);
    assert.deepEqual([...new Set(named)].sort(), Object.keys(module).sort());
    const members = (name) => {
      const body = new RegExp(`^export (?:class|interface) ${name}\\b[^{]*\\{\\n([^]*?)^\\}`, 'm').exec(types)?.[1] ?? '';
      return new Set([...body.matchAll(/^ {2}(?:static )?(?:readonly )?(\w+)(?=[(:?])/gm)].map((match) => match[1]));
    };
    assert.deepEqual([...members('Calls')].sort(), Object.keys(varnucht.calls).sort());
    for (const { js, kinds } of signatures(header)) {
      const [, list] = new RegExp(`^ {2}${js}\\(([^)]*)\\): Answer;`, 'm').exec(types);
      assert.deepEqual(list.split(',').map((each) => each.split(': ')[1]), kinds.map((kind) => (kind === 'number' ? 'number' : 'Uint8Array')));
    }
    const hidden = ['constructor', 'nextPiece'];
    for (const [name, what] of Object.entries(module)) {
      if (typeof what !== 'function' || !what.prototype || !/^class/.test(Function.prototype.toString.call(what))) continue;
      const own = Object.getOwnPropertyNames(what.prototype).filter((member) => !hidden.includes(member));
      for (const member of own) assert.ok(members(name).has(member), `${name}.${member} has no type`);
    }
  },

  'the example runs, and lists what the example in C lists'() {
    const source = file('js/example.mjs').toString();
    assert.ok(file('README.md').toString().includes(`\`\`\`js\n${source}\`\`\``), 'README.md has js/example.mjs, whole');
    const said = execFileSync(process.execPath, ['js/example.mjs', 'samples/sample.mgt'], { encoding: 'utf8' }).split('\n');
    const listed = readFileSync(`${folder}/files.txt`, 'utf8').trimEnd().split('\n');
    assert.deepEqual(said.slice(0, listed.length), listed);
    assert.deepEqual(said.slice(listed.length), ['write 512 bytes at 86528', 'write 512 bytes at 3072', 'la la la', 'write 512 bytes at 3072',
      'refused 15, slot null: no live slot has the name, capitals or not', '']);
  },

  'it loads from bytes, from a module, from a file, and without vectors'() {
    const wasm = file('js/varnucht.wasm');
    return Promise.all([wasm, new Uint8Array(wasm).buffer, new WebAssembly.Module(wasm), new URL('varnucht.wasm', import.meta.url)]
      .map(async (source) => (await load(source)).check(blank())))
      .then(async () => {
        const real = WebAssembly.validate;
        WebAssembly.validate = () => false;
        try {
          (await load()).check(blank());
        } finally {
          WebAssembly.validate = real;
        }
        await (await load(new URL(`data:application/wasm;base64,${wasm.toString('base64')}`))).check(blank()); // by fetch, as in a page
        await assert.rejects(load('varnucht.wasm'), TypeError);
        await assert.rejects(load(new Uint8Array(8)), WebAssembly.CompileError);
        const empty = new WebAssembly.Module(Uint8Array.of(0, 97, 115, 109, 1, 0, 0, 0));
        await assert.rejects(load(empty));
      });
  },

  'a listing tells what the tool lists'() {
    const disk = varnucht.open(sample);
    const rows = file('samples/list.txt').toString().split('\n').filter((line) => /^ *\d+ {2}/.test(line));
    assert.equal(rows.length, disk.listing.entries.length);
    for (const [i, entry] of disk.listing.entries.entries()) {
      const shown = [entry.slot, entry.name, module.kindWords(entry.kind), entry.length, entry.sectorCount];
      for (const each of shown) assert.ok(rows[i].replaceAll(',', '').includes(String(each)), `${rows[i]}: ${each}`);
      assert.equal(disk.start(entry.name), entry.start.address);
      assert.equal(disk.read(entry.name).length, entry.length);
      assert.equal(disk.length(entry.name), entry.length);
      assert.deepEqual([...disk.chain(entry.name)].sort((a, b) => a - b), [...entry.sectors].sort((a, b) => a - b));
      assert.equal(entry.sectors.length, entry.sectorCount);
    }
    assert.equal(disk.listing.find('tunes').slot, 2);
    assert.equal(disk.listing.find('NOWHERE'), null);
    assert.deepEqual(disk.image, sample);
    disk.close();
  },

  'a change names its sectors in order, and cut anywhere leaves the old disk or the new'() {
    const disk = varnucht.open(sample);
    const changes = [
      (d) => d.save(code('HELLO', bytes(5000))), (d) => d.rename('hello', 'BYE'), (d) => d.hide('BYE'), (d) => d.show('BYE'), (d) => d.protect('BYE'),
      (d) => d.release('BYE'), (d) => d.erase('TITLE'), (d) => d.save(code('WIDE', bytes(12000))), (d) => d.gather('WIDE'), (d) => d.gather('WIDE'),
    ];
    changes.forEach((change, which) => {
      const copy = disk.image;
      const before = view(copy);
      const sectors = [...change(disk)];
      assert.equal(which === changes.length - 1, sectors.length === 0);
      sectors.forEach(({ place, bytes: written, number, track, sector }, i) => {
        assert.equal(view(copy), before);
        assert.deepEqual([place, module.sectorNumber(track, sector), written.length], [512 * number, number, 512]);
        copy.set(written, place);
        if (i + 1 === sectors.length) assert.notEqual(copy, before);
      });
      assert.deepEqual(copy, disk.image);
    });
    assert.deepEqual(disk.read('bye'), bytes(5000));
    assert.equal(disk.isScattered('WIDE'), false);
    disk.close();
  },

  'refusals are errors'() {
    const disk = varnucht.open(blank());
    disk.save(code('TUNES', bytes(1000)));
    const was = disk.image;
    refused(1, null, () => varnucht.open(sample.subarray(1)));
    refused(1, null, () => varnucht.check(new ArrayBuffer(3)));
    const odd = blank();
    odd.set([13, 65]);
    refused(2, 1, () => varnucht.open(odd));
    odd[255] = 77;
    refused(24, null, () => varnucht.open(odd));
    refused(12, null, () => disk.read(''));
    refused(12, null, () => disk.read('ELEVEN BYTE'));
    refused(12, null, () => disk.save(code(' TUNES', bytes(3))));
    refused(13, null, () => disk.save({ ...code('A', bytes(3)), kind: 21 }));
    refused(14, null, () => disk.save({ ...code('A', bytes(3)), start: { page: 32, offset: 32768 } }));
    refused(14, null, () => new Start(0, 49152));
    refused(15, null, () => disk.read('NOWHERE'));
    refused(15, null, () => disk.chain('NOWHERE'));
    refused(16, 1, () => disk.save(code('tunes', bytes(3))));
    refused(19, null, () => disk.save(code('A', bytes(800000))));
    refused(21, null, () => disk.sector(80, 1));
    refused(21, null, () => varnucht.sector(blank(), blank(), 3, 0, 1));
    disk.protect('TUNES');
    refused(17, 1, () => disk.erase('TUNES'));
    disk.release('TUNES');
    assert.deepEqual(disk.image, was);
    disk.checkRelease();
    disk.close();
  },

  'what is no argument is told so, and nothing traps'() {
    const disk = varnucht.open(sample);
    const was = disk.image;
    const { calls } = varnucht;
    for (const bad of [undefined, null, 'AAA', 7, {}, [1, 2], new Uint16Array(4), new DataView(new ArrayBuffer(4))]) {
      assert.throws(() => varnucht.open(bad), TypeError);
      assert.throws(() => calls.check(bad), TypeError);
      if (bad !== 'AAA') assert.throws(() => disk.read(bad), TypeError);
      assert.throws(() => disk.save({ ...code('A', bad) }), TypeError);
    }
    for (const bad of [-1, 1.5, 2 ** 32, NaN, Infinity]) {
      assert.throws(() => calls.sector(sample, sample, bad, 0, 1), RangeError);
      assert.throws(() => disk.sector(bad, 1), RangeError);
      assert.throws(() => disk.save({ ...code('A', bytes(1)), kind: bad }), RangeError);
    }
    assert.throws(() => calls.sector(sample, sample, 1n, 0, 1), TypeError);
    assert.throws(() => calls.sector(sample, sample, '1', 0, 1), TypeError);
    assert.throws(() => calls.check(), TypeError);
    assert.throws(() => calls.check(sample, sample), TypeError);
    assert.throws(() => blank(40), RangeError);
    assert.throws(() => disk.reader('TUNES').pieces(0).next(), RangeError);
    // Greatest numbers, and bytes that went elsewhere meanwhile.
    assert.deepEqual(calls.next(sample, 0xffffffff, 0xffffffff, 0xffffffff, new Uint8Array(9)), { refusal: 0, slot: 1600, value: 0, free: 0 });
    const gone = sample.slice();
    structuredClone(gone.buffer, { transfer: [gone.buffer] });
    assert.equal(calls.check(gone).refusal, 1);
    assert.deepEqual(disk.image, was);
    disk.close();
    assert.throws(() => disk.read('TUNES'), /closed/);
    disk.close();
  },

  'bytes past the memory are refused'() {
    const own = new module.Varnucht(new WebAssembly.Module(file('js/varnucht.wasm')));
    const disk = own.open(sample);
    const size = own.memory.buffer.byteLength;
    const huge = new Uint8Array(2 ** 32 - 1); // of zeros that nobody touches
    assert.throws(() => own.check(huge), RangeError);
    assert.throws(() => own.calls.check(huge.subarray(0, 2 ** 31)), RangeError);
    assert.throws(() => own.calls.eraseMany(disk.image, huge.subarray(0, 2 ** 31), huge.subarray(2 ** 31), new Uint8Array(2)), RangeError);
    assert.throws(() => own.calls.list(disk.image, huge), RangeError);
    assert.throws(() => disk.save(code('A', huge)), RangeError);
    assert.throws(() => disk.reader('TUNES').read(huge), RangeError);
    for (const length of [2 ** 32 - 65536, 2 ** 32, 2 ** 33]) assert.throws(() => own.memory.take(length), RangeError);
    assert.ok(own.memory.buffer.byteLength <= size + 2 ** 21);
    assert.deepEqual(disk.image, sample);
    assert.equal(disk.read('TUNES').length, 10000);
    // What fits is the library's to refuse: a body of 100 MB, after which the memory is greater and the disk still there.
    refused(19, null, () => disk.save(code('A', new Uint8Array(100_000_000))));
    assert.deepEqual(disk.image, sample);
  },

  'a call that the engine gives up leaves the library whole'() {
    const disk = varnucht.open(sample);
    const deeper = () => { disk.checkRelease(); deeper(); };
    for (let i = 0; i < 3; i++) assert.throws(deeper, RangeError);
    assert.deepEqual(disk.image, sample);
    assert.equal(disk.tree().length, disk.listing.entries.length);
    disk.close();
  },

  'places in the memory are apart and come back'() {
    const { memory } = new module.Varnucht(new WebAssembly.Module(file('js/varnucht.wasm')));
    const taken = new Map();
    let seed = 1;
    const draw = (n) => (seed = (seed * 48271) % 2147483647) % n;
    for (let i = 0; i < 3000; i++) {
      if (draw(5) < 3) {
        const length = draw(3) ? draw(100) : draw(100000);
        const at = memory.take(length);
        assert.ok(at % 16 === 0 && at + length <= memory.buffer.byteLength);
        memory.view(at, length).fill(i & 255);
        taken.set(at, [length, i & 255]);
      } else if (taken.size > 0) {
        const [at, [length, value]] = [...taken][draw(taken.size)];
        assert.ok(memory.view(at, length).every((byte) => byte === value));
        memory.give(at);
        memory.give(at); // once more is nothing
        taken.delete(at);
      }
    }
    for (const at of taken.keys()) memory.give(at);
    const size = memory.buffer.byteLength;
    const lowest = memory.take(1);
    memory.give(lowest);
    assert.equal(memory.take(size - lowest), lowest); // all of it in one
    assert.equal(memory.buffer.byteLength, size);
  },

  'many disks share the memory, and give it back'() {
    const first = varnucht.open(sample);
    const held = Array.from({ length: 30 }, (_, i) => varnucht.open(blank(4 + i)));
    held.forEach((disk, i) => disk.save(code(`FILE${i}`, bytes(1000 + i, i))));
    held.forEach((disk, i) => assert.deepEqual([disk.directory.tracks, disk.read(`file${i}`)], [4 + i, bytes(1000 + i, i)]));
    assert.deepEqual(first.image, sample);
    const copy = held[3].clone();
    copy.erase('FILE3');
    assert.equal(held[3].length('FILE3'), 1003);
    const size = varnucht.memory.buffer.byteLength;
    for (const disk of [...held, copy, first]) disk.close();
    for (let i = 0; i < 200; i++) varnucht.open(sample).close();
    for (let i = 0; i < 50; i++) assert.throws(() => varnucht.open(new Uint8Array(IMAGE_LENGTH).fill(65)), Refused);
    assert.equal(varnucht.memory.buffer.byteLength, size);
  },

  async 'a disk that nobody has gives its memory back'() {
    const own = new module.Varnucht(new WebAssembly.Module(file('js/varnucht.wasm')));
    for (let i = 0; i < 10; i++) {
      for (let n = 0; n < 20; n++) own.open(sample);
      globalThis.gc();
      await new Promise((done) => setTimeout(done, 5));
    }
    assert.ok(own.memory.buffer.byteLength < 150 * IMAGE_LENGTH, String(own.memory.buffer.byteLength));
  },

  'a reader gives the body in pieces, and not after a change'() {
    const disk = varnucht.open(sample);
    const body = disk.read('TUNES');
    for (const length of [1, 509, 510, 511, 4096, 20000]) {
      const pieces = [...disk.reader('tunes').pieces(length)];
      assert.deepEqual(Uint8Array.from(pieces.flatMap((piece) => [...piece])), body);
    }
    const reader = disk.reader('TUNES');
    const out = new Uint8Array(7000).fill(9);
    assert.deepEqual([reader.read(out), reader.left], [7000, 3000]);
    disk.gather('AUTO'); // it has one sector: nothing changes
    assert.deepEqual([reader.read(out), reader.left, reader.read(out)], [3000, 0, 0]);
    assert.deepEqual(out.subarray(0, 3000), body.subarray(7000));
    disk.hide('TUNES');
    assert.throws(() => reader.read(out), /changed/);
    disk.close();
  },

  'names are as the crate has them'() {
    const name = new Name('TUNES');
    assert.ok(name.equals('tunes  ') && !name.equals('TUNE'));
    assert.deepEqual(String.fromCharCode(...name.bytes), 'TUNES     ');
    assert.equal(String(new Name(Uint8Array.of(65, 0, 255))), 'A\\x00\\xff');
    assert.deepEqual(unescape('A\\x00\\xff\\\\'), Uint8Array.of(65, 0, 255, 92));
    assert.equal(escape(unescape('\\x20A\\\\ B')), '\\x20A\\\\ B');
    assert.throws(() => unescape('A\\q'), SyntaxError);
    assert.equal(Name.unusable('ELEVEN BYTE'), 'has 11 bytes, and a name has 1 to 10');
    assert.equal(Name.unusable(''), 'has no byte, and a name has 1 to 10');
    assert.equal(Name.unusable('\0A'), 'begins with the byte 0');
    assert.equal(NewName.unusable(' A'), 'begins with a space');
    assert.equal(NewName.unusable('A\n'), 'has 10 as byte 2, and a new name has bytes 32 to 126 alone');
    assert.equal(NewName.unusable('Ab~'), null);
    name.bytes[0] = 66;
    assert.equal(String(name), 'TUNES');
  },

  'trees, many erased at once, starts and the disk\'s name'() {
    const image = blank(20);
    image.set(new TextEncoder().encode('MAGAZINE 7'), 210);
    for (const [slot, name, kind, parent] of [[0, 'GAMES', 7, 0], [1, 'ARCADE', 8, 7], [2, 'MUSIC', 9, 0]]) {
      image.set([21, ...new TextEncoder().encode(name.padEnd(10))], 256 * slot);
      [image[256 * slot + 250], image[256 * slot + 254]] = [kind, parent];
    }
    const disk = varnucht.open(image);
    assert.deepEqual([disk.name, disk.directory.slots, disk.listing.freeSlots, disk.listing.room], ['MAGAZINE 7', 398, 395, 510 * 1401 - 9]);
    const tree = disk.tree();
    assert.deepEqual(tree.all.map((branch) => [String(branch.entry.name), branch.depth, branch.length]),
      [['GAMES', 0, 1], ['ARCADE', 1, 0], ['MUSIC', 0, 0]]);
    assert.deepEqual(tree.branches.map((branch) => branch.branches.length), [1, 0]);
    assert.equal(disk.tree('games').length, 1);
    assert.equal(disk.listing.within(disk.listing.find('ARCADE')).slot, 1);
    assert.equal(disk.listing.within(disk.listing.find('MUSIC')), null);
    refused(29, 1, () => disk.erase('GAMES'));
    refused(13, 1, () => disk.read('GAMES'));
    const { answers, sectors } = disk.eraseMany(['ARCADE', 'games', 'NOWHERE', new Name('MUSIC')]);
    assert.deepEqual(answers.map((answer) => answer && answer.number), [null, null, 15, null]);
    assert.deepEqual(sectors.numbers, [0, 1]);
    assert.deepEqual(disk.eraseMany([]).answers, []);
    assert.equal(disk.name, 'MAGAZINE 7');
    disk.save({ ...code('A', bytes(9)), start: new Start(29, 32768), execution: [1, 2, 3], information: [4, 5] });
    const entry = disk.listing.find('A');
    assert.deepEqual([disk.start('A'), [...entry.execution], [...entry.information]], [491520, [1, 2, 3], [4, 5, 0, 0, 0, 0, 0, 0, 0, 0, 0]]);
    assert.equal(varnucht.open(blank()).name, null);
    disk.close();
  },

  'a slot lies in the sector that its mark writes'() {
    for (const tracks of [4, 5, 39]) {
      const disk = varnucht.open(blank(tracks));
      const held = Array.from({ length: module.SECTORS }, (_, number) => number).filter((number) => disk.directory.holds(number));
      assert.equal(held.length, disk.directory.sectors);
      for (let slot = 1; slot <= Math.min(disk.directory.slots, 120); slot++) {
        disk.save(code(`F${slot}`, bytes(1)));
        assert.deepEqual(disk.hide(`F${slot}`).numbers, [module.Directory.sectorOfSlot(slot)]);
      }
      assert.ok(held.includes(module.Directory.sectorOfSlot(disk.directory.slots)) && held.includes(module.Directory.sectorOfSlot(1)));
      disk.close();
    }
  },

  async 'sectors are written in order, and no change is left out'() {
    const disk = varnucht.open(sample);
    const store = sample.slice();
    const write = async (place, written) => { await null; store.set(written, place); };
    const seen = [];
    await disk.save(code('A', bytes(3000))).writeTo(write, (written, of) => seen.push([written, of]));
    assert.deepEqual(seen.at(-1), [7, 7]);
    assert.deepEqual(store, disk.image);
    let left = 3;
    const failing = async (place, written) => { if (left-- === 0) throw new Error('full'); await write(place, written); };
    const saved = disk.save(code('B', bytes(3000)));
    await assert.rejects(saved.writeTo(failing), (error) => {
      assert.ok(error instanceof WriteError);
      assert.deepEqual([error.written, error.of, error.cause.message], [3, 7, 'full']);
      assert.match(error.message, /^3 of 7 sectors were written, and then: full\. The old disk is still there and reads as before$/);
      return true;
    });
    const hidden = disk.hide('A');
    const nothing = () => assert.fail('it is not asked to');
    await assert.rejects(hidden.writeTo(nothing), /an earlier change of this disk was not written whole/);
    await disk.gather('AUTO').writeTo(nothing); // nothing to write
    await saved.writeTo(write);
    await assert.rejects(saved.writeTo(nothing), /written already/);
    await hidden.writeTo(write);
    assert.deepEqual(store, disk.image);
    left = 0;
    await assert.rejects(disk.erase('A').writeTo(failing), /The directory's sector was the one that failed/);
    left = 0;
    const other = varnucht.open(sample);
    await assert.rejects(other.eraseMany(['AUTO', 'FULL']).sectors.writeTo(failing), /The files erased in those are gone/);
    other.close();
    disk.close();
  },

  'pieces make the disk of one save, and nothing is seen of them before the close'() {
    const before = view(sample);
    for (const length of [0, 1, 501, 502, 1011, 1012, 5000]) {
      const saved = varnucht.open(sample);
      const numbers = saved.save(code('TUNE', bytes(length))).numbers;
      for (const piece of [1, 510, 511, 4096]) {
        const disk = varnucht.open(sample);
        const store = sample.slice();
        const recording = disk.record(code('TUNE'));
        const listing = disk.listing;
        const write = (sectors) => [...sectors].map(({ place, bytes: written, number }) => {
          store.set(written, place);
          return number;
        });
        const inner = chunks(bytes(length), piece).flatMap((part) => write(recording.add(part)));
        write(recording.add(new ArrayBuffer(0)));
        assert.equal(disk.listing, listing);
        assert.equal(view(store), before);
        const kept = recording.bytes;
        const closing = recording.close();
        const ends = write(closing);
        assert.deepEqual(recording.bytes, kept);
        assert.deepEqual(disk.image, saved.image, `${length} bytes in pieces of ${piece}`);
        assert.deepEqual(store, saved.image);
        // The sectors that the save names, each once: those between, then the last, the first, and the directory's.
        const data = numbers.slice(0, -1);
        assert.deepEqual(inner, data.slice(1, -1));
        assert.deepEqual(ends, [...(data.length > 1 ? [data.at(-1)] : []), data[0], numbers.at(-1)]);
        assert.deepEqual(disk.read('tune'), bytes(length));
        disk.close();
      }
      saved.close();
    }
  },

  'a recording is as long as the disk, and not longer'() {
    const disk = varnucht.open(blank());
    const recording = disk.record({ ...code('LONG'), execution: [1, 2, 3], information: [4, 5] });
    chunks(bytes(LONGEST_BODY), 100000).forEach((piece) => recording.add(piece));
    const [kept, was] = [recording.bytes, disk.image];
    refused(19, null, () => recording.add(Uint8Array.of(7)));
    refused(19, null, () => recording.add(new Uint8Array(10_000_000)));
    assert.deepEqual([recording.bytes, disk.image], [kept, was]);
    recording.close();
    const saved = varnucht.open(blank());
    saved.save({ ...code('LONG', bytes(LONGEST_BODY)), execution: [1, 2, 3], information: [4, 5] });
    assert.deepEqual(disk.image, saved.image);
    saved.close();
    refused(19, null, () => disk.record(code('A')));
    disk.close();
  },

  'a recording is refused as a save is, and what is no record or no piece is told so'() {
    const disk = varnucht.open(blank());
    disk.save(code('TUNES', bytes(1000)));
    const was = disk.image;
    refused(12, null, () => disk.record(code(' A')));
    refused(13, null, () => disk.record({ ...code('A'), kind: 21 }));
    refused(14, null, () => disk.record({ ...code('A'), start: { page: 0, offset: 49152 } }));
    refused(16, 1, () => disk.record(code('tunes')));
    for (const bad of [undefined, null, 'AAA', 7, {}, [1, 2], new Uint16Array(1024)]) {
      assert.throws(() => disk.resume(bad), TypeError);
      assert.throws(() => disk.record(code('A')).add(bad), TypeError);
    }
    for (const length of [0, RECORD_LENGTH - 1, RECORD_LENGTH + 1]) assert.throws(() => disk.resume(new Uint8Array(length)), RangeError);
    assert.throws(() => disk.record({ ...code('A'), kind: 1.5 }), RangeError);
    // Any bytes may be handed over as a record: each call answers, and a refused one changes nothing.
    refused(30, null, () => disk.resume(new ArrayBuffer(RECORD_LENGTH)).add(bytes(3)));
    refused(30, null, () => disk.resume(bytes(RECORD_LENGTH)).close());
    const nameless = disk.record(code('A')).bytes;
    nameless[12] = 0;
    refused(12, null, () => disk.resume(nameless).close());
    assert.deepEqual(disk.image, was);
    for (let i = 0; i < 79; i++) disk.save(code(`FILE${i}`, bytes(1)));
    refused(18, null, () => disk.record(code('A')));
    const recording = varnucht.open(was).record(code('A'));
    recording.bytes.fill(9); // a copy
    assert.equal(recording.close().length, 2);
    const late = disk.clone();
    disk.close();
    late.erase('FILE3');
    const open = late.record(code('A'));
    late.close();
    assert.throws(() => open.add(bytes(1)), /closed/);
    assert.throws(() => open.close(), /closed/);
  },

  'between the pieces the disk may be changed, and 30 tells what does not fit together'() {
    const begun = () => {
      const disk = varnucht.open(sample);
      const recording = disk.record(code('TUNE'));
      assert.equal(recording.add(bytes(2300)).length, 3);
      return { disk, recording };
    };
    const whole = Uint8Array.of(...bytes(2300), 7);
    { // One that moves no sector; and a reader goes on beside the pieces, and not after the close.
      const { disk, recording } = begun();
      disk.hide('TUNES');
      const reader = disk.reader('TUNES');
      assert.equal(recording.add(bytes(600)).length, 1);
      assert.equal(recording.add(new Uint8Array(0)).length, 0);
      assert.equal(reader.read(new Uint8Array(100)), 100);
      assert.equal(recording.close().length, 3);
      assert.throws(() => reader.read(new Uint8Array(100)), /changed/);
      assert.deepEqual(disk.read('TUNE'), Uint8Array.of(...bytes(2300), ...bytes(600)));
      refused(30, null, () => recording.close()); // once more
      disk.close();
    }
    { // One that takes its sectors, and gives them back.
      const { disk, recording } = begun();
      disk.save(code('OTHER', bytes(3)));
      const kept = recording.bytes;
      refused(30, null, () => recording.add(Uint8Array.of(7)));
      refused(30, null, () => recording.close());
      assert.deepEqual(recording.bytes, kept);
      disk.erase('OTHER');
      recording.add(Uint8Array.of(7));
      recording.close();
      assert.deepEqual(disk.read('TUNE'), whole);
      disk.close();
    }
    { // One that takes its name.
      const { disk, recording } = begun();
      disk.rename('TUNES', 'Tune');
      refused(16, 2, () => recording.close());
      disk.close();
    }
    { // Sectors that were not written are found by their links; but not where an old file left the same ones.
      const disk = varnucht.open(blank());
      const recording = disk.record(code('TUNE'));
      recording.add(bytes(2300));
      refused(30, null, () => varnucht.open(blank()).resume(recording.bytes).close());
      const old = varnucht.open(blank());
      old.save(code('OLD', bytes(2300, 5)));
      old.erase('OLD');
      old.resume(recording.bytes).close();
      assert.deepEqual(old.read('TUNE').subarray(501, 2031), bytes(2300, 5).subarray(501, 2031));
    }
    { // Two at once have the same sectors; the one that closes has them.
      const disk = varnucht.open(sample);
      const [one, two] = [disk.record(code('ONE')), disk.record(code('TWO'))];
      one.add(bytes(1600, 1));
      two.add(bytes(1012, 2));
      one.close();
      const expected = bytes(1600, 1);
      expected.set(bytes(1012, 2).subarray(501, 1011), 501);
      assert.deepEqual(disk.read('ONE'), expected);
      refused(30, null, () => two.close());
      disk.close();
    }
  },

  async 'a recording goes on by its bytes from where the disk is stored, and cut anywhere leaves the old files'() {
    const expected = varnucht.open(blank()); // where no old file left a link
    expected.save(code('ONE', bytes(700)));
    const old = expected.image;
    const before = view(old);
    expected.save(code('TUNE', bytes(2900)));
    for (let room = 0; room <= 7; room++) {
      const store = old.slice();
      let left = room;
      const write = async (place, written) => {
        if (left-- <= 0) throw new Error('full');
        store.set(written, place);
      };
      const disk = varnucht.open(old);
      const recording = disk.record(code('TUNE'));
      const piece = recording.add(bytes(2900).subarray(0, 2300));
      const cut = async (sectors, done, words) => assert.rejects(sectors.writeTo(write), (error) => {
        assert.ok(error instanceof WriteError);
        assert.deepEqual([error.written, error.of], [done, sectors.length]);
        assert.match(error.message, words);
        return true;
      });
      assert.equal(piece.length, 3);
      if (room < 3) await cut(piece, room, /^\d of 3 sectors were written, and then: full\. All files are there as before; the recording cannot go on$/);
      else await piece.writeTo(write);
      assert.equal(view(store), before);
      // The rest by the bytes that were kept, on a disk that was opened anew.
      const anew = varnucht.open(store);
      const kept = recording.bytes;
      const rest = anew.resume(kept);
      if (room < 3) {
        refused(30, null, () => rest.add(bytes(2900).subarray(2300)));
        refused(30, null, () => rest.close());
        // The first disk writes no later piece either.
        await assert.rejects(recording.add(bytes(2900).subarray(2300)).writeTo(() => assert.fail('it is not asked to')), /not written whole/);
      } else {
        const last = rest.add(bytes(2900).subarray(2300));
        assert.equal(last.length, 1);
        assert.deepEqual(kept, recording.bytes); // it goes on with a copy
        if (room < 4) await cut(last, 0, /the recording cannot go on$/);
        else await last.writeTo(write);
        assert.equal(view(store), before);
        const closing = rest.close();
        if (room === 3) await assert.rejects(closing.writeTo(write), /not written whole/);
        else if (room < 7) await cut(closing, room - 4, room < 6 ? /reads as before$/ : /The directory's sector was the one that failed/);
        else await closing.writeTo(write);
        assert.deepEqual(anew.image, expected.image);
        // A close that was stopped is made again, from what is stored.
        if (room > 3) {
          const again = room < 7 ? varnucht.open(store).resume(rest.bytes).close() : [];
          if (room < 7) assert.equal(view(store), before);
          for (const { place, bytes: written } of again) store.set(written, place);
          assert.deepEqual(store, expected.image);
        }
      }
      anew.close();
      disk.close();
    }
    expected.close();
  },

  'a report counts disks'() {
    const report = varnucht.report();
    const disk = varnucht.open(blank());
    disk.save(code('TUNES', bytes(1000)));
    assert.equal(report.add(disk), 1);
    assert.equal(report.add(new TextEncoder().encode('no disk')), 2);
    const other = varnucht.report();
    other.add(blank());
    assert.equal(report.join(other), 3);
    assert.deepEqual([report.disks, report.accepted, report.refused(1), report.refused(99), report.files], [3, 2, 1, 0, 1]);
    assert.deepEqual([report.fileSectors, report.freeSectors], [2, 3118]);
    assert.deepEqual(report.refusals, [{ number: 1, words: words(1), disks: 1 }]);
    assert.deepEqual(report.kinds, [{ kind: 19, words: 'code', files: 1 }]);
    assert.deepEqual(report.classes.filter(({ files }) => files > 0), [{ from: 2, to: 3, files: 1 }]);
    assert.deepEqual(report.classes.at(-1), { from: 1024, to: null, files: 0 });
    assert.deepEqual(varnucht.report(report.bytes).bytes, report.bytes);
    assert.throws(() => varnucht.report(new Uint8Array(3)), RangeError);
    const full = new Uint8Array(496);
    full.set([255, 255]);
    refused(31, null, () => varnucht.report(full).add(sample));
    disk.close();
  },
};

let failed = 0;
for (const [name, run] of Object.entries(tests)) {
  try {
    await run();
  } catch (error) {
    failed++;
    console.error(`js/test: ${name}:`, error);
  }
}
console.log(`js/test: ${Object.keys(tests).length - failed} held, ${failed} failed`);
process.exitCode = failed ? 1 : 0;
