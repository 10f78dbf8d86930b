// Subdirectories, the check before a release, the report over the shelf.
import assert from 'node:assert/strict';
import { tool } from './tool.mjs';
import { unzip } from './unzip.mjs';

export default ({ browser, tab, disks, toDisk, rows }) => ({
  async 'directories, in the listing, as a tree, and in a zip'() {
    await tab.choose('#images', disks.nested);
    await tab.says('nested.mgt: accepted, 6 files');
    assert.deepEqual((await rows()).map((row) => row.at(-1)), ['', 'GAMES', '', '', 'GAMES', 'ARCADE']);
    // A file of the Spectrum has its length and its start in its header.
    const [, name, , kind, , length, start] = (await rows())[3];
    assert.deepEqual([name, kind, Number(length), start], ['LETTER', 'ZX generic', tool('read', disks.nested, 'LETTER').length, '32,768']);
    await tab.click('#tree-box summary');
    const depth = await tab.evaluate(`[...document.querySelectorAll('#tree button')].map((each) => { let n = 0; for (let at = each; at.id !== 'tree'; at = at.parentElement) n += at.tagName === 'UL'; return [n - 1, each.textContent]; })`);
    const lines = tool('tree', disks.nested).toString().trimEnd().split('\n').slice(1, -1);
    assert.deepEqual(depth, lines.map((line) => { const [, bars, name] = /^ *\d+ {2}([│├└─ ]*)(\S+)/.exec(line); return [bars.length / 3, name]; }));
    await tab.click('#tree button', 'GAMES');
    await tab.click('#file-tools button', 'Erase');
    await tab.says(/^Refused 29, slot 1: a directory whose code/);
    const files = unzip((await tab.download(() => toDisk('Get all files'))).bytes);
    assert.deepEqual([...files.keys()], ['LETTER', 'GAMES/CHESS', 'GAMES/ARCADE/PONG', 'varnucht-listing.txt']);
  },

  async 'the check before a release'() {
    await toDisk('Check for release');
    await tab.says('Fit to go out: no file has waste sectors');
    await tab.choose('#images', disks.waste);
    await tab.says('waste.mgt: accepted, 1 file');
    await toDisk('Check for release');
    await tab.says(/^Refused 22, slot 1: carried kind, and the count is above the least/);
  },

  async 'a report over the shelf is the tool\'s'() {
    await tab.click('#count');
    await tab.says(/^7 disks, 4 accepted/);
    // The tool counts the disks as the page has them: those that were changed, as downloaded.
    const host = `${browser.room}/host.mgt`;
    const report = JSON.parse(tool('report', '--json', host, disks.broken, disks.short, disks.long, disks.hostile, disks.nested, disks.waste).toString());
    const tables = await tab.evaluate(`[...document.querySelectorAll('#report table')].map((table) => [...table.tBodies[0].rows].map((row) => [...row.cells].map((cell) => cell.textContent)))`);
    assert.deepEqual(tables[0], report.refused.map(({ number, words, disks: many }) => [`${number}: ${words}`, String(many)]));
    assert.deepEqual(tables[1], report.kinds.map(({ kind, words, files }) => [`${kind} ${words}`, String(files)]));
    assert.deepEqual(tables[2].map((row) => Number(row[1])), report.classes.map(({ files }) => files));
    const group = (number) => number.toLocaleString('en');
    assert.equal(await tab.text('#report-status'), `${report.disks} disks, ${report.accepted} accepted; ${report.files} files with ${group(report.file_sectors)} sectors, ${group(report.free_sectors)} sectors free`);
  },
});
