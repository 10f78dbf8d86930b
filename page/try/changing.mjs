// Every change, undo and redo, and what is said of a disk that is not downloaded yet.
import assert from 'node:assert/strict';
import { copyFileSync, readFileSync } from 'node:fs';
import { tool } from './tool.mjs';

export default ({ browser, tab, disks, body, sample, chooseFile, onFile, toDisk, focus }) => ({
  async 'every change, and the disk that comes out is the tool\'s'() {
    const host = `${browser.room}/host.mgt`;
    copyFileSync(disks.sample, host);
    const marked = { Hide: 'hidden', Show: 'shown', Protect: 'protected', Release: 'released' };
    for (const mark of Object.keys(marked)) {
      await onFile('TUNES', mark);
      await tab.says(`TUNES is ${marked[mark]}`);
      assert.equal(await focus(), { Show: 'file Hide', Release: 'file Protect' }[mark] ?? `file ${mark}`);
      tool(mark.toLowerCase(), host, 'TUNES');
    }
    assert.equal(await tab.text('#unsaved'), ''); // it is as it was
    await onFile('SECRET', 'Show');
    tool('show', host, 'SECRET');
    await tab.says('SECRET is shown');
    assert.equal(await tab.text('#unsaved'), 'Changed, and not downloaded yet.');

    await onFile('MASTER', 'Erase');
    await tab.says('Refused 17, slot 7: protected (erase, rename)');
    await onFile('TITLE', 'Erase');
    await tab.says('TITLE is erased; it can be undone');
    assert.equal(await focus(), 'title'); // what had the focus is gone
    tool('erase', host, 'TITLE');

    await chooseFile('FINAL');
    await tab.fill('#rename-to', 'AUTO');
    await tab.click('#rename button');
    await tab.says('Refused 16, slot 1: a live slot has the new name, capitals or not');
    await tab.fill('#rename-to', 'ONE\\TWO');
    await tab.click('#rename button');
    await tab.says(/^a backslash begins/);
    await tab.fill('#rename-to', 'LAST\\\\ONE');
    await tab.click('#rename button');
    await tab.says('FINAL is renamed to LAST\\\\ONE');
    tool('rename', host, 'FINAL', 'LAST\\\\ONE');

    const save = async (path, name, kind, page, offset) => {
      await tab.choose('#save-body', path);
      await tab.fill('#save-name', name);
      await tab.evaluate(`document.getElementById('save-kind').value = ${kind}`);
      await tab.fill('#save-page', page);
      await tab.fill('#save-offset', offset);
      await tab.click('#save-form button');
    };
    const long = body('long.bin', 300000);
    await save(long, 'LONG', 19, '1', '32767');
    await tab.says('Refused 14: start page above 31, or offset outside 32,768 to 49,151 (save, start address)');
    await save(long, 'LONG', 18, '5', '40000');
    await tab.says('LONG is saved');
    tool('save', host, 'LONG', long, '--kind', 'string-array', '--page', '5', '--offset', '40000');
    assert.match(await tab.text('#file-status'), /^slot 3, string array, 589 sectors, scattered, 300,000 bytes, start 105,536 \(page 5, offset 40000\)$/);

    await onFile('TUNES', 'Gather');
    await tab.says('TUNES is moved to sectors in a row');
    tool('gather', host, 'TUNES');
    await onFile('TUNES', 'Gather');
    await tab.says('TUNES lies in a row already');
    await toDisk('Gather all');
    await tab.says(/^\d files? (is|are) moved/);
    tool('gather', host, '--all');

    for (const name of ['MASTER', 'OVER', 'FULL']) await tab.click(`#list input[aria-label="Tick ${name}"]`);
    assert.match(await focus(), /^tick /);
    await tab.click('#ticked button', 'Erase 3 ticked files');
    await tab.says(/^2 files are erased\. Left: MASTER: Refused 17: protected/);
    tool('erase', host, 'MASTER', 'FULL', 'OVER');

    const got = await tab.download(() => toDisk('Download the disk'));
    assert.match(got.name, /^sample \d{4}-\d\d-\d\d \d\d\.\d\d\.\d\d\.mgt$/);
    assert.ok(got.bytes.equals(readFileSync(host)), 'the disk is the tool\'s');
    assert.equal(await tab.text('#unsaved'), '');
  },

  async 'a long file shows before it is whole'() {
    await chooseFile('LONG');
    await tab.evaluate(`window.seen = []; new MutationObserver(() => seen.push(document.getElementById('view-status').textContent))
      .observe(document.getElementById('view-status'), { childList: true }); 0`);
    await tab.click('#file-tools button', 'Hex');
    await tab.until('it is whole', async () => (await tab.text('#view-status')) === '300,000 bytes');
    const seen = await tab.evaluate('seen.filter(Boolean)');
    assert.ok(seen[0] === '4,096 of 300,000 bytes' && seen.length > 20, seen.slice(0, 3).join());
    assert.equal(await tab.evaluate(`document.querySelectorAll('#bytes pre div').length`), Math.ceil(300000 / 4096));
    await tab.click('#view-close');
  },

  async 'leaving asks while something is not downloaded'() {
    await toDisk('undo');
    await tab.says('Undone: erase 3 files');
    const asked = tab.dialogs.length;
    tab.answerDialogs(false);
    await tab.ask('Page.navigate', { url: 'about:blank' }).catch(() => {});
    await tab.until('it asks', () => tab.dialogs.length > asked);
    assert.equal(tab.dialogs.at(-1).type, 'beforeunload');
    tab.answerDialogs(true);
    assert.equal(await tab.text('#title'), 'sample.mgt');
    await toDisk('redo');
    await tab.says('Redone: erase 3 files');
    assert.equal(await tab.text('#unsaved'), '');
  },

  async 'all is undone, by keys, and done again'() {
    const host = readFileSync(`${browser.room}/host.mgt`);
    await tab.click('#title');
    const last = () => tab.text('#tools button[data-key="undo"]');
    let many = 0;
    for (; (await last()) !== 'Undo' && many < 20; many++) {
      const before = await last();
      await tab.key('z', { modifiers: 2, code: 'KeyZ' });
      await tab.until('it is undone', async () => (await last()) !== before || /nothing/.test(await tab.text('#status')));
    }
    assert.equal(many, 11);
    assert.equal(await tab.text('#unsaved'), 'Changed, and not downloaded yet.'); // what is downloaded is another disk
    const old = await tab.download(() => toDisk('Download the disk'));
    assert.ok(old.bytes.equals(sample), 'the disk is the sample again');
    for (let i = 0; i < many; i++) {
      await toDisk('redo');
      await tab.says(/^Redone/);
    }
    const again = await tab.download(() => toDisk('Download the disk'));
    assert.ok(again.bytes.equals(host), 'all is done again');
    assert.notEqual(again.name, old.name);
  },
});
