// What the user can do with the disk that is shown. A refusal is said, and nothing has changed.
import { Refused, unescape } from '../../js/varnucht.js';
import { closeView, showFile, showSector } from './bytes.mjs';
import { byId } from './dom.mjs';
import { draw } from './draw.mjs';
import { counted } from './format.mjs';
import { getAll, getDisk, getFile, saveBack } from './downloads.mjs';
import { moveTo, ownerOf } from './map.mjs';
import { attempt, say, whyNot } from './status.mjs';
import { entries, state, tickedEntries } from './state.mjs';

// A change: done, drawn and said; whether it was done. `what` is what can be undone then.
function change(what, run, said) {
  return attempt(() => {
    const done = state.item.change(what, run);
    closeView();
    draw();
    say(said(done));
    return true;
  }) === true;
}

const MARKED = { hide: 'hidden', show: 'shown', protect: 'protected', release: 'released' };

const mark = (entry, how) => change(`${how} ${entry.name}`, (disk) => disk[how](entry.name), () => `${entry.name} is ${MARKED[how]}`);

const erase = (entry) => change(`erase ${entry.name}`, (disk) => disk.erase(entry.name), () => `${entry.name} is erased; it can be undone`);

const rename = (entry, text) =>
  change(`rename ${entry.name}`, (disk) => disk.rename(entry.name, unescape(text)), () => `${entry.name} is renamed to ${text}`);

const gather = (entry) =>
  change(`gather ${entry.name}`, (disk) => disk.gather(entry.name), (sectors) =>
    (sectors.length === 0 ? `${entry.name} lies in a row already` : `${entry.name} is moved to sectors in a row`));

// Those of several files that were refused, each with its reason.
const leftWords = (left) => (left.length === 0 ? '' : `. Left: ${left.join('; ')}`);

// Each file by rising slot, into what those before it left free. Those that find no room stay, and are named.
function gatherEach(disk) {
  const result = { moved: 0, left: [] };
  for (const { name, isDirectory } of disk.listing.entries) {
    if (isDirectory) continue;
    try {
      if (disk.gather(name).length > 0) result.moved++;
    } catch (error) {
      if (!(error instanceof Refused)) throw error;
      result.left.push(`${name}: ${whyNot(error)}`);
    }
  }
  return result;
}

const gatherAll = () =>
  change('gather all', gatherEach, ({ moved, left }) => `${counted(moved, 'file is', 'files are')} moved${leftWords(left)}`);

function eraseTicked() {
  const ticked = tickedEntries();
  change(`erase ${counted(ticked.length, 'file')}`, (disk) => disk.eraseMany(ticked.map(({ name }) => name)), ({ answers }) => {
    const left = answers.flatMap((why, i) => (why === null ? [] : [`${ticked[i].name}: ${whyNot(why)}`]));
    return `${counted(answers.length - left.length, 'file is', 'files are')} erased${leftWords(left)}`;
  });
}

const save = ({ kind, text, page, offset, body }) =>
  change(`save ${text}`, (disk) => {
    const had = new Set(disk.listing.entries.map(({ slot }) => slot));
    disk.save({ kind, name: unescape(text), start: { page, offset }, body });
    state.slot = disk.listing.entries.find(({ slot }) => !had.has(slot)).slot;
  }, () => `${text} is saved`);

// Undone and redone alike.
function goBack(how, word) {
  attempt(() => {
    const what = state.item[how]();
    closeView();
    draw();
    say(what === null ? `There is nothing to ${how}` : `${word}: ${what}`);
  });
}
const undo = () => goBack('undo', 'Undone');
const redo = () => goBack('redo', 'Redone');

function choose(slot) {
  state.slot = slot;
  draw();
  byId('file').scrollIntoView({ block: 'nearest' });
  say(`${byId('file-title').textContent} is chosen: ${byId('file-status').textContent}`);
}

function tick(slot, on) {
  if (on) state.ticked.add(slot);
  else state.ticked.delete(slot);
  draw();
}

function tickAll() {
  const all = tickedEntries().length < entries().length;
  state.ticked = new Set(all ? entries().map(({ slot }) => slot) : []);
  draw();
}

function sort(by) {
  state.sort = { by, down: state.sort.by === by && !state.sort.down };
  draw();
  say(`Sorted by ${by}, ${state.sort.down ? 'falling' : 'rising'}`);
}

// A sector is chosen: its bytes are shown, and its file is chosen too.
function chooseSector(number) {
  attempt(() => {
    moveTo(number);
    const owner = ownerOf(number);
    if (owner !== null) state.slot = owner.slot;
    draw();
    showSector();
  });
}

function view(entry, asText) {
  attempt(() => {
    showFile(entry, asText);
    byId('view-title').focus();
  });
}

function checkRelease() {
  attempt(() => {
    state.item.disk.checkRelease();
    say('Fit to go out: no file has waste sectors');
  });
}

const get = (entry) => attempt(() => getFile(entry));
const getEach = () => attempt(getAll);

function downloadDisk() {
  attempt(() => {
    getDisk();
    draw();
  });
}

const writeBack = () => attempt(async () => {
  await saveBack();
  draw();
});

// All of them, for what draws the buttons.
export const act = Object.freeze({
  mark, erase, rename, gather, gatherAll, eraseTicked, save, undo, redo,
  choose, tick, tickAll, sort, chooseSector, view, checkRelease, get, getEach, downloadDisk, writeBack,
});
