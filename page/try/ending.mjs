// A file dropped on the form of a save, and a disk taken off the shelf.
import assert from 'node:assert/strict';
import { copyFileSync, readFileSync } from 'node:fs';
import { tool } from './tool.mjs';

export default ({ browser, tab, body, onFile, toDisk, openImages }) => ({
  async 'a file that is dropped on the form is the one to be saved'() {
    const before = (await openImages()).length;
    const host = `${browser.room}/dropped.mgt`;
    copyFileSync(`${browser.room}/host.mgt`, host);
    const note = body('note.one.txt', 1000);
    await tab.drop([note], await tab.placeOf('#save-title'));
    await tab.until('it has a name', () => tab.evaluate(`document.getElementById('save-name').value === 'note.one'`));
    await tab.evaluate(`document.getElementById('save-kind').value = 16`);
    await tab.fill('#save-page', '2');
    await tab.fill('#save-offset', '32768');
    await tab.key('Enter', { text: '\r' });
    await tab.says('note.one is saved');
    tool('save', host, 'note.one', note, '--kind', 'basic', '--page', '2');
    assert.equal((await openImages()).length, before);
    const got = await tab.download(() => toDisk('Download the disk'));
    assert.ok(got.bytes.equals(readFileSync(host)));
  },

  async 'a disk is taken off the shelf, and a changed one only when that is meant'() {
    await onFile('AUTO', 'Hide');
    await tab.says('AUTO is hidden');
    tab.answerDialogs(false);
    await tab.click('#items button[aria-label="Take sample.mgt off the shelf"]');
    await tab.until('it asks', () => tab.dialogs.at(-1)?.type === 'confirm');
    assert.equal((await openImages()).length, 7);
    tab.answerDialogs(true);
    await tab.click('#items button[aria-label="Take sample.mgt off the shelf"]');
    await tab.says('sample.mgt is off the shelf');
    assert.equal((await openImages()).length, 6);
  },
});
