// The page in a real browser, from a file: node page/try/test.mjs [PICTURE]. What comes out of it is compared with what the host's tool does.
// The steps go on from each other in one tab, as a user does.
import assert from 'node:assert/strict';
import { readFileSync, writeFileSync } from 'node:fs';
import { resolve } from 'node:path';
import { pathToFileURL } from 'node:url';
import access from './access.mjs';
import { savesBack } from './back.mjs';
import { startBrowser } from './browser.mjs';
import changing from './changing.mjs';
import counting from './counting.mjs';
import { drawn, makeDisks } from './disks.mjs';
import ending from './ending.mjs';
import hostile from './hostile.mjs';
import viewing from './viewing.mjs';
import { takePicture } from './picture.mjs';
import { openTab } from './tab.mjs';
import { userOf } from './user.mjs';

const page = resolve('target/page/varnucht.html');
const sample = new Uint8Array(readFileSync('samples/sample.mgt'));
const LATEST = 180000;

async function run(browser) {
  const disks = makeDisks(browser.room, sample);
  const body = (name, length) => {
    writeFileSync(`${browser.room}/${name}`, drawn(length));
    return `${browser.room}/${name}`;
  };
  const tab = await openTab(browser, pathToFileURL(page).href);
  const world = { browser, tab, disks, body, sample, page, ...userOf(tab) };
  const groups = [viewing, changing, hostile, counting, access, ending].map((group) => group(world));
  const steps = Object.entries({ ...Object.assign({}, ...groups), 'saving back replaces the file whole': () => savesBack(world) });
  for (const [name, step] of steps) {
    await step().catch((error) => { throw new Error(`${name}: ${error.stack}`); });
  }
  assert.deepEqual(tab.faults, []);
  const elsewhere = (url) => url !== pathToFileURL(page).href && !/^(blob|data|about):|^http:\/\/127\.0\.0\.1:/.test(url);
  assert.deepEqual(tab.requests.filter(elsewhere), [], 'nothing is fetched');
  if (process.argv[2]) await takePicture(process.argv[2], world);
  return steps.length;
}

const began = Date.now();
const browser = await startBrowser();
// Whatever hangs, this does not.
const late = setTimeout(() => {
  console.error(`page/test: it took more than ${LATEST / 1000} s`);
  process.exit(1);
}, LATEST);
try {
  const many = await run(browser);
  console.log(`page/test: ${browser.product}: ${many} steps, and the disks that come out are the tool's; ${((Date.now() - began) / 1000).toFixed(1)} s`);
} catch (error) {
  console.error(`page/test: failed: ${error.message}`);
  process.exitCode = 1;
} finally {
  clearTimeout(late);
  await browser.stop();
}
