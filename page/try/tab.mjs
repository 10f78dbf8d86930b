// The page in a tab, worked as a user works it: by mouse, by keys, by dropped and chosen files, by downloads.
import assert from 'node:assert/strict';
import { mkdirSync, readFileSync, readdirSync } from 'node:fs';
import { join, resolve } from 'node:path';

const PATIENCE = 20000;
const pause = (ms) => new Promise((done) => setTimeout(done, ms));

export async function openTab(browser, url) {
  const got = join(browser.room, 'got');
  mkdirSync(got, { recursive: true });
  await browser.ask('Browser.setDownloadBehavior', { behavior: 'allow', downloadPath: got, eventsEnabled: true });
  const { targetId } = await browser.ask('Target.createTarget', { url: 'about:blank' });
  const { sessionId } = await browser.ask('Target.attachToTarget', { targetId, flatten: true });
  const ask = (method, params) => browser.ask(method, params, sessionId);

  const faults = []; // what the page throws, and what the policy or the network forbids
  const dialogs = [];
  let answer = true;
  const downloads = [];
  const requests = [];
  browser.listen(({ method, params }) => {
    if (method === 'Runtime.exceptionThrown') faults.push(params.exceptionDetails.exception?.description ?? params.exceptionDetails.text);
    if (method === 'Log.entryAdded' && params.entry.level === 'error') faults.push(params.entry.text);
    if (method === 'Network.requestWillBeSent') requests.push(params.request.url);
    if (method === 'Browser.downloadProgress' && params.state === 'completed') downloads.push(params.guid);
    if (method === 'Page.javascriptDialogOpening') {
      dialogs.push(params);
      ask('Page.handleJavaScriptDialog', { accept: answer }).catch(() => {});
    }
  });
  for (const part of ['Page', 'Runtime', 'Log', 'DOM', 'Network']) await ask(`${part}.enable`);

  const evaluate = async (expression) => {
    const how = { awaitPromise: true, returnByValue: true, userGesture: true };
    const { result, exceptionDetails } = await ask('Runtime.evaluate', { expression, ...how });
    if (exceptionDetails) throw new Error(`${exceptionDetails.exception?.description ?? exceptionDetails.text} in ${expression}`);
    return result.value;
  };
  const text = (selector) => evaluate(`document.querySelector(${JSON.stringify(selector)})?.textContent ?? null`);
  const until = async (what, test) => {
    for (const end = Date.now() + PATIENCE; Date.now() < end; await pause(20)) {
      const found = await test();
      if (found) return found;
    }
    throw new Error(`it did not happen: ${what}; the page says: ${await text('#status')}; faults: ${faults.join('; ')}`);
  };
  const says = (wanted) => until(`"${wanted}" is said`, async () => {
    const said = await text('#status');
    return wanted instanceof RegExp ? wanted.test(said) : said === wanted;
  });

  // The middle of an element, brought into view. Found by a selector, and where several are there by the text.
  const placeOf = (selector, wanted) => evaluate(`(() => {
    const all = [...document.querySelectorAll(${JSON.stringify(selector)})];
    const found = ${wanted === undefined ? 'all[0]' : `all.find((each) => each.textContent === ${JSON.stringify(wanted)})`};
    if (!found) return null;
    found.scrollIntoView({ block: 'center', inline: 'center' });
    const box = found.getBoundingClientRect();
    return { x: box.left + box.width / 2, y: box.top + box.height / 2, left: box.left, top: box.top, disabled: found.disabled === true };
  })()`);
  const mouse = (type, { x, y }, more = {}) => ask('Input.dispatchMouseEvent', { type, x, y, ...more });
  const clickAt = async (place) => {
    await mouse('mouseMoved', place);
    await mouse('mousePressed', place, { button: 'left', clickCount: 1 });
    await mouse('mouseReleased', place, { button: 'left', clickCount: 1 });
  };
  const click = async (selector, wanted) => {
    const place = await placeOf(selector, wanted);
    assert.ok(place && !place.disabled, `${selector} ${wanted ?? ''} is ${place ? 'disabled' : 'not there'}`);
    await clickAt(place);
  };
  const key = async (name, { text: typed, modifiers = 0, code = name } = {}) => {
    const codes = { Tab: 9, Enter: 13, ' ': 32, ArrowRight: 39, ArrowDown: 40, z: 90 };
    const about = { key: name, code, modifiers, windowsVirtualKeyCode: codes[name] ?? 0 };
    await ask('Input.dispatchKeyEvent', { type: typed ? 'keyDown' : 'rawKeyDown', text: typed, ...about });
    await ask('Input.dispatchKeyEvent', { type: 'keyUp', ...about });
  };
  const fill = async (selector, value) => {
    await evaluate(`(() => { const field = document.querySelector(${JSON.stringify(selector)}); field.focus(); field.select?.(); })()`);
    await ask('Input.insertText', { text: value });
  };
  const choose = async (selector, ...files) => {
    const { root } = await ask('DOM.getDocument');
    const { nodeId } = await ask('DOM.querySelector', { nodeId: root.nodeId, selector });
    await ask('DOM.setFileInputFiles', { nodeId, files: files.map((file) => resolve(file)) });
  };
  const drop = async (files, place = { x: 300, y: 60 }) => {
    const data = { items: [], files: files.map((file) => resolve(file)), dragOperationsMask: 1 };
    for (const type of ['dragEnter', 'dragOver', 'drop']) await ask('Input.dispatchDragEvent', { type, x: place.x, y: place.y, data });
  };

  // The file that an action downloads: its name and its bytes.
  const download = async (act) => {
    const [before, ready] = [new Set(readdirSync(got)), downloads.length];
    await act();
    await until('a download is done', () => downloads.length > ready);
    const isNew = (each) => !before.has(each) && !each.endsWith('.crdownload');
    const name = await until('the download is there', () => readdirSync(got).find(isNew));
    return { name, bytes: readFileSync(join(got, name)) };
  };
  const narrow = (width, height) => ask('Emulation.setDeviceMetricsOverride', { width, height, deviceScaleFactor: 1, mobile: width < 600 });
  const picture = async (more = {}) => Buffer.from((await ask('Page.captureScreenshot', { format: 'png', ...more })).data, 'base64');

  await ask('Page.navigate', { url });
  await until('the page is ready', () => evaluate('document.body?.dataset.ready === "yes"'));
  return {
    ask, evaluate, text, until, says, placeOf, mouse, clickAt, click, key, fill, choose, drop, download, narrow, picture,
    faults, dialogs, requests, answerDialogs: (accept) => { answer = accept; },
  };
}
