// Refused disks, and names that would be markup or paths.
import assert from 'node:assert/strict';
import { escape } from '../../js/varnucht.js';
import { HOSTILE, WORSE } from './disks.mjs';
import { dump, tool } from './tool.mjs';
import { unzip } from './unzip.mjs';

export default ({ tab, disks, onFile, toDisk, showItem, names, view, onMap }) => ({
  async 'a refused disk says why, and shows its sectors'() {
    await showItem('broken.mgt');
    const said = tool('check', disks.broken).toString();
    const [, number, slot, why] = /^Refused (\d+), slot (\d+): (.*)\. Its sectors can be looked at as they are\.$/.exec(await tab.text('#verdict'));
    for (const part of [number, slot, why]) assert.ok(said.includes(part), `${said} has ${part}`);
    assert.equal(await tab.evaluate(`['files', 'file', 'save'].every((id) => document.getElementById(id).hidden)`), true);
    await tab.click('#tools button[data-key="slot"]');
    await tab.until('the sector is shown', async () => (await tab.text('#view-title')) === 'Track 0, sector 2');
    assert.equal(await view(), dump(disks.broken, 0, 2));
    await tab.fill('#go-track', '99');
    await tab.key('Enter', { text: '\r' });
    await tab.says('Refused 21: no such drive, track or sector');
    await showItem('short.mgt');
    assert.match(await tab.text('#verdict'), /^Refused 1: the image is not 819,200 bytes\./);
    await tab.clickAt(await onMap(0, 2));
    await tab.until('the bytes are shown', async () => /488 bytes of it/.test(await tab.text('#view-status')));
    assert.equal((await view()).split('\n').length, 31);
  },

  async 'names from a disk never become markup, nor paths'() {
    const before = await tab.evaluate(`document.querySelectorAll('img, b, i, script').length`);
    await tab.choose('#images', disks.hostile);
    await tab.says(/accepted, 9 files$/);
    const label = disks.hostile.split('/').at(-1);
    assert.equal(await tab.text('#title'), label);
    assert.match(await tab.text('#verdict'), /The disk's name is <i>DISK<\/i\./);
    const shown = [...HOSTILE.map((name) => escape(new TextEncoder().encode(name))), ...WORSE.map((name) => escape(name).trimEnd())];
    assert.deepEqual(await names(), shown);
    for (const name of shown) {
      await onFile(name, 'Hide');
      await tab.says(`${name} is hidden`);
      await tab.click('#file-tools button', 'Hex');
      await tab.until('the bytes are shown', async () => (await tab.text('#view-title')) === `${name} as hex`);
    }
    assert.equal(await tab.evaluate(`document.querySelectorAll('img, b, i, script').length`), before);
    const files = unzip((await tab.download(() => toDisk('Get all files'))).bytes);
    assert.equal(files.size, 10);
    for (const name of files.keys()) assert.match(name, /^[A-Za-z0-9_+,=@#&()!~'%-]([A-Za-z0-9_+,=@#&()!~'% .-]*[A-Za-z0-9_+,=@#&()!~'%-])?(\.txt)?$/);
    assert.ok(!files.has('CON') && files.has('%43ON') && files.has('%2E%2E'));
    const got = await tab.download(() => onFile('../../x', 'Get'));
    assert.equal(got.name, '%2E.%2F..%2Fx');
    assert.ok(await tab.evaluate(`(() => { try { document.body.innerHTML = '<b>x</b>'; } catch (error) { return error instanceof TypeError; } return false; })()`));
    assert.ok(await tab.evaluate(`fetch('data:,x').then(() => false, () => true)`));
    tab.faults.length = 0; // these two were to be refused
  },
});
