import assert from 'node:assert/strict';
import { copyFileSync, readFileSync } from 'node:fs';
import { createServer } from 'node:http';
import { openTab } from './tab.mjs';
import { tool } from './tool.mjs';

// Saving back needs a handle, which no driver can choose. So the page is served here, and the drop hands over a real file of the
// browser's own file system; there is no other difference.
export async function savesBack({ browser, disks, sample, page }) {
  const server = createServer((_, response) => response.setHeader('content-type', 'text/html').end(readFileSync(page)));
  await new Promise((done) => server.listen(0, '127.0.0.1', done));
  try {
    const other = await openTab(browser, `http://127.0.0.1:${server.address().port}/`);
    await other.evaluate(`(async () => {
      const folder = await navigator.storage.getDirectory();
      window.handle = await folder.getFileHandle('sample.mgt', { create: true });
      window.put = async (bytes) => { const out = await handle.createWritable(); await out.write(bytes); await out.close(); };
      window.held = async () => [...new Uint8Array(await (await handle.getFile()).arrayBuffer())].map((byte) => String.fromCharCode(byte)).join('');
      DataTransferItem.prototype.getAsFileSystemHandle = async function () { await put(await this.file.arrayBuffer()); return handle; };
      const asFile = DataTransferItem.prototype.getAsFile;
      DataTransferItem.prototype.getAsFile = function () { this.file = asFile.call(this); return this.file; };
    })()`);
    const held = async () => Buffer.from(await other.evaluate('held()'), 'latin1');
    await other.drop([disks.sample]);
    await other.says('sample.mgt: accepted, 13 files');
    const erase = async (name) => {
      await other.click('#list tbody button', name);
      await other.click('#file-tools button', 'Erase');
      await other.says(`${name} is erased; it can be undone`);
    };
    const back = () => other.click('#tools button', 'Save back');
    await erase('TUNES');
    assert.ok((await held()).equals(sample));
    // Where the writing fails the old file is there, whole.
    await other.evaluate(`window.real = FileSystemWritableFileStream.prototype.close; FileSystemWritableFileStream.prototype.close = async () => { throw new DOMException('full'); }; 0`);
    await back();
    await other.says('sample.mgt was not replaced, the old one is still there: full');
    assert.ok((await held()).equals(sample));
    assert.equal(await other.text('#unsaved'), 'Changed, and not downloaded yet.');
    await other.evaluate('FileSystemWritableFileStream.prototype.close = real; 0');
    await back();
    await other.says('sample.mgt is replaced by the disk as it is now');
    assert.equal(await other.text('#unsaved'), '');
    const host = `${browser.room}/back.mgt`;
    copyFileSync(disks.sample, host);
    tool('erase', host, 'TUNES');
    assert.ok((await held()).equals(readFileSync(host)));
    // Altered elsewhere meanwhile: it asks, and leaves it where that is not meant.
    await erase('AUTO');
    await other.download(() => other.click('#tools button', 'Download the disk'));
    assert.equal(await other.text('#unsaved'), '');
    await other.evaluate('put(new Uint8Array(3))');
    other.answerDialogs(false);
    await back();
    await other.says('sample.mgt was left as it is');
    assert.equal((await held()).length, 3);
    other.answerDialogs(true);
    await back();
    await other.says('sample.mgt is replaced by the disk as it is now');
    assert.equal((await held()).length, 819200);
    // Chosen by the browser's own dialog, for which no driver can stand in, it is opened with its handle too.
    await other.evaluate('window.showOpenFilePicker = async () => [handle]; 0');
    await other.click('#pick');
    await other.says('sample.mgt: accepted, 11 files');
    assert.ok(await other.placeOf('#tools button', 'Save back'));
    assert.deepEqual(other.faults, []);
  } finally {
    server.closeAllConnections();
    server.close();
  }
}
