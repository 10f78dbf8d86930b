// A headless chromium, driven over its debugging pipe: no library, no port. Every question has a deadline, so that a browser that
// does not start or does not answer is a failure and never a wait.
import { spawn } from 'node:child_process';
import { mkdtempSync, rmSync } from 'node:fs';
import { tmpdir } from 'node:os';
import { join } from 'node:path';

const DEADLINE = 30000;

export async function startBrowser() {
  const room = mkdtempSync(join(tmpdir(), 'varnucht-page-'));
  const flags = [
    '--headless', '--disable-gpu', '--disable-dev-shm-usage', '--no-first-run', '--disable-extensions', '--disable-background-networking',
    '--disable-component-update', '--hide-scrollbars', '--force-device-scale-factor=1', '--lang=en', '--window-size=1000,900',
    '--remote-debugging-pipe', `--user-data-dir=${room}/profile`,
    '--no-sandbox', // root has none, and many containers; the page is our own
  ];
  const child = spawn('chromium', [...flags, 'about:blank'], { stdio: ['ignore', 'ignore', 'pipe', 'pipe', 'pipe'] });
  const waiting = new Map();
  const listeners = [];
  let [rest, last, complaints, ended] = ['', 0, '', null];
  const end = (why) => {
    ended ??= new Error(`${why}; chromium said: ${complaints.slice(-2000) || 'nothing'}`);
    for (const { fail } of waiting.values()) fail(ended);
    waiting.clear();
  };
  // Whatever ends the test ends the browser too.
  process.on('exit', () => {
    child.kill('SIGKILL');
    rmSync(room, { recursive: true, force: true, maxRetries: 10, retryDelay: 50 });
  });
  child.on('error', (error) => end(`chromium cannot be started: ${error.message}`));
  child.on('exit', (status) => end(`chromium ended with status ${status}`));
  child.stderr.on('data', (part) => { complaints += part; });
  child.stdio[3].on('error', () => {});
  child.stdio[4].setEncoding('utf8').on('data', (part) => {
    const whole = (rest + part).split('\0');
    rest = whole.pop();
    for (const message of whole.map((text) => JSON.parse(text))) {
      const { done, fail } = waiting.get(message.id) ?? {};
      waiting.delete(message.id);
      if (message.error) fail?.(new Error(JSON.stringify(message.error)));
      else if (done) done(message.result);
      else listeners.forEach((listen) => listen(message));
    }
  });

  const ask = (method, params = {}, sessionId = undefined) => new Promise((done, fail) => {
    if (ended) return fail(ended);
    const id = ++last;
    const late = setTimeout(() => {
      waiting.delete(id);
      fail(new Error(`chromium did not answer ${method} within ${DEADLINE / 1000} s: ${complaints.slice(-2000)}`));
    }, DEADLINE);
    const settled = (then) => (value) => { clearTimeout(late); then(value); };
    waiting.set(id, { done: settled(done), fail: settled(fail) });
    child.stdio[3].write(`${JSON.stringify({ id, method, params, sessionId })}\0`);
  });

  const stop = async () => {
    const gone = new Promise((done) => { if (child.exitCode !== null || child.signalCode !== null) done(); else child.on('exit', done); });
    const kill = setTimeout(() => child.kill('SIGKILL'), 3000);
    await ask('Browser.close').catch(() => child.kill('SIGKILL'));
    await gone;
    clearTimeout(kill);
    rmSync(room, { recursive: true, force: true, maxRetries: 10, retryDelay: 100 });
  };
  const { product } = await ask('Browser.getVersion').catch(async (error) => { await stop(); throw error; });
  return { room, ask, stop, product, listen: (listener) => listeners.push(listener) };
}
