// What is seen of a disk: the shelf, the listing, the map, bytes; and what is given of it.
import assert from 'node:assert/strict';
import { dump, tool } from './tool.mjs';
import { unzip } from './unzip.mjs';

export default ({ tab, disks, onFile, toDisk, rows, names, view, focus, openImages, onMap, colourAt }) => ({
  async 'images dropped together lie on the shelf, each with its verdict'() {
    await tab.drop([disks.sample, disks.broken, disks.short, disks.long]);
    await tab.says('4 images opened, 3 refused');
    assert.deepEqual(await openImages(), [
      ['sample.mgt', 'accepted, 13 files'], ['broken.mgt', 'refused 5, slot 3: the map\'s set bits are not as many as the count'],
      ['short.mgt', 'refused 1: the image is not 819,200 bytes'], ['long.mgt', 'refused 1: the image is not 819,200 bytes']]);
    assert.equal(await tab.text('#title'), 'sample.mgt');
  },

  async 'the listing is the tool\'s'() {
    const [head, ...lines] = tool('list', disks.sample).toString().trimEnd().split('\n');
    assert.match(head, /^slot/);
    const marks = { '': '--', hidden: 'h-', protected: '-p', 'hidden, protected': 'hp' };
    const shown = (await rows()).map(([slot, name, mark, ...rest]) => [slot, marks[mark], name, ...rest.map((cell) => cell.replaceAll(',', ''))].join(' '));
    assert.deepEqual(shown, lines.slice(0, -2).map((line) => line.trim().replace(/ +/g, ' ')));
    assert.match(await tab.text('#verdict'), /^Accepted\. 13 files, 1,503 sectors free: room for a file of 766,521 bytes\. 4 directory tracks: 80 slots, 67 free\.$/);
  },

  async 'it can be sorted'() {
    const by = async (key) => {
      await tab.click(`#list th button[data-key="sort ${key}"]`);
      return tab.evaluate(`document.querySelector('#list th button[data-key="sort ${key}"]').parentElement.getAttribute('aria-sort')`);
    };
    assert.equal(await by('length'), 'ascending');
    assert.equal(await focus(), 'sort length');
    assert.deepEqual((await names()).slice(0, 3), ['EMPTY', 'BACK\\\\SLASH', 'SCORES']);
    assert.equal(await by('length'), 'descending');
    assert.equal((await names())[0], 'TUNES');
    assert.equal(await by('name'), 'ascending');
    assert.equal((await names())[0], 'AUTO');
    assert.equal(await by('slot'), 'ascending');
  },

  async 'pointing at a sector tells its file, and at a file its sectors'() {
    const tunes = await onMap(4, 2);
    const title = await onMap(5, 1);
    await tab.mouse('mouseMoved', tunes);
    await tab.until('the file is told', async () => (await tab.text('#map-status')) === 'Track 4, sector 2: TUNES, its sector 1 of 20');
    const faded = await colourAt(title);
    const full = await colourAt(tunes);
    await tab.mouse('mouseMoved', title);
    await tab.until('the other file is told', async () => /TITLE/.test(await tab.text('#map-status')));
    assert.notEqual(await colourAt(title), faded);
    assert.notEqual(await colourAt(tunes), full);
    const row = await tab.placeOf('#list tbody button', 'TUNES');
    await tab.mouse('mouseMoved', row);
    assert.equal(await tab.evaluate(`document.getElementById('map').getContext('2d').getImageData(4.5 * document.getElementById('map').clientWidth / 80, 1.5 * document.getElementById('map').clientWidth / 80, 1, 1).data.join()`), full);
  },

  async 'a sector is chosen, and its bytes are the tool\'s'() {
    await tab.clickAt(await onMap(4, 2));
    await tab.until('the sector is shown', async () => (await tab.text('#view-title')) === 'Track 4, sector 2');
    assert.equal(await view(), dump(disks.sample, 4, 2));
    assert.equal(await tab.text('#file-title'), 'TUNES');
    await tab.fill('#go-track', '128');
    await tab.fill('#go-sector', '10');
    await tab.key('Enter', { text: '\r' });
    await tab.until('the sector is shown', async () => (await tab.text('#view-title')) === 'Track 128, sector 10');
    assert.equal(await view(), dump(disks.sample, 128, 10));
  },

  async 'a file as hex and as text'() {
    const bytes = tool('read', disks.sample, 'TUNES');
    await onFile('TUNES', 'Hex');
    await tab.until('it is whole', async () => (await tab.text('#view-status')) === '10,000 bytes');
    const lines = await tab.evaluate(`[...document.querySelectorAll('#bytes pre div')].map((piece) => piece.textContent).join('\\n')`);
    const read = lines.split('\n').map((line) => line.slice(6, 55).trim().split(/ +/).map((cell) => parseInt(cell, 16)));
    assert.deepEqual(Buffer.from(read.flat()), bytes);
    await tab.click('#file-tools button', 'Text');
    await tab.until('it is whole', async () => (await tab.text('#view-title')) === 'TUNES as text' && (await tab.text('#view-status')) === '10,000 bytes');
    assert.match(await view(), /·\t\n··\n·+ !"#\$%&'\(\)\*\+,-\.\/0123456789:;<=>\?@ABC/);
    await tab.click('#view-close');
  },

  async 'one file is given as the tool reads it'() {
    const got = await tab.download(() => onFile('TUNES', 'Get'));
    assert.equal(got.name, 'TUNES');
    assert.deepEqual(got.bytes, tool('read', disks.sample, 'TUNES'));
  },

  async 'all files are given as a zip'() {
    const got = await tab.download(() => toDisk('Get all files'));
    assert.equal(got.name, 'sample.zip');
    const files = unzip(got.bytes);
    assert.equal(files.size, 14);
    for (const [name, bytes] of files) {
      if (name === 'varnucht-listing.txt') assert.equal(bytes.toString().trimEnd().split('\n').length, 14);
      else assert.deepEqual(bytes, tool('read', disks.sample, name.replaceAll('%5C', '\\\\')), name);
    }
  },
});
