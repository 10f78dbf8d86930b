// What starts the page, and what its fixed parts do.
import { Kind, LONGEST_BODY, kindWords, load, sectorNumber } from '../../js/varnucht.js';
import { act } from './actions.mjs';
import { closeView } from './bytes.mjs';
import { byId, make } from './dom.mjs';
import { readyMap } from './map.mjs';
import { attempt, say } from './status.mjs';
import { openAll, report, unsavedItems } from './items.mjs';
import { chosenEntry, state } from './state.mjs';

// page/make puts the library here, without vectors: so one page serves every browser.
const LIBRARY = '@LIBRARY@';

// What was dropped. The handles must be asked for before the event is over; where there are none, or the browser gives none, the
// files do.
async function sourcesOf(transfer) {
  const items = [...transfer.items].filter((item) => item.kind === 'file');
  const plainFiles = items.map((item) => item.getAsFile());
  const handles = await Promise.all(items.map((item) => item.getAsFileSystemHandle?.().catch(() => null) ?? null));
  const both = plainFiles.map((file, i) => ({ file, handle: handles[i]?.kind === 'file' ? handles[i] : null }));
  return both.filter(({ file }) => file !== null);
}

function readyDrop() {
  const over = (on) => document.body.classList.toggle('over', on);
  const hasFiles = (event) => event.dataTransfer.types.includes('Files'); // text that is dragged is the browser's affair
  window.addEventListener('dragover', (event) => {
    if (!hasFiles(event)) return;
    event.preventDefault();
    over(true);
  });
  window.addEventListener('dragleave', (event) => { if (event.relatedTarget === null) over(false); });
  window.addEventListener('drop', (event) => {
    if (!hasFiles(event)) return;
    event.preventDefault();
    over(false);
    // On the form of a save it is the file to be saved.
    if (event.target instanceof Element && event.target.closest('#save') && state.item?.disk) {
      byId('save-body').files = event.dataTransfer.files;
      nameFromFile();
      return;
    }
    attempt(async () => openAll(await sourcesOf(event.dataTransfer)));
  });
}

function readyOpen() {
  byId('images').addEventListener('change', (event) => {
    const chosen = Array.from(event.target.files, (file) => ({ file, handle: null }));
    attempt(() => openAll(chosen));
    event.target.value = ''; // so that the same file can be chosen again
  });
  if (typeof window.showOpenFilePicker !== 'function') return;
  byId('pick').hidden = false;
  byId('pick').addEventListener('click', () => attempt(async () => {
    const handles = await window.showOpenFilePicker({ multiple: true }).catch((error) => {
      if (error.name === 'AbortError') return []; // the user chose none
      throw error;
    });
    if (handles.length > 0) await openAll(await Promise.all(handles.map(async (handle) => ({ file: await handle.getFile(), handle }))));
  }));
}

// A file's own name, as far as a disk can hold it, where none was typed.
function nameFromFile() {
  const [file] = byId('save-body').files;
  if (!file || byId('save-name').value !== '') return;
  byId('save-name').value = file.name.replace(/\.[^.]*$/, '').replace(/[^ -~]|\\/g, '').trim().slice(0, 10);
}

function readyForms() {
  const carried = [Kind.CODE, Kind.BASIC, Kind.NUMERIC_ARRAY, Kind.STRING_ARRAY, Kind.SCREEN];
  byId('save-kind').append(...carried.map((kind) => make('option', { value: kind }, kindWords(kind))));
  byId('save-body').addEventListener('change', nameFromFile);
  const on = (id, run) => byId(id).addEventListener('submit', (event) => {
    event.preventDefault();
    attempt(run);
  });
  on('save-form', async () => {
    const { item } = state;
    // No more is read than shows that the body fits on no disk.
    const body = new Uint8Array(await byId('save-body').files[0].slice(0, LONGEST_BODY + 1).arrayBuffer());
    if (state.item !== item) {
      say('Another disk is shown meanwhile: nothing was saved', true);
      return;
    }
    const saved = act.save({
      kind: Number(byId('save-kind').value), text: byId('save-name').value, page: Number(byId('save-page').value),
      offset: Number(byId('save-offset').value), body,
    });
    if (saved) for (const id of ['save-body', 'save-name']) byId(id).value = '';
  });
  on('rename', () => { if (act.rename(chosenEntry(), byId('rename-to').value)) byId('rename-to').value = ''; });
  on('go', () => act.chooseSector(sectorNumber(Number(byId('go-track').value), Number(byId('go-sector').value))));
}

function readyKeys() {
  window.addEventListener('keydown', (event) => {
    const typing = event.target instanceof Element && event.target.closest('input:not([type="checkbox"]), select');
    if (!(event.ctrlKey || event.metaKey) || event.key.toLowerCase() !== 'z' || typing || !state.item?.disk) return;
    event.preventDefault();
    if (event.shiftKey) act.redo();
    else act.undo();
  });
  window.addEventListener('beforeunload', (event) => {
    if (unsavedItems().length === 0) return;
    event.preventDefault();
    event.returnValue = true; // older browsers ask for it
  });
}

async function begin() {
  state.library = await load(Uint8Array.from(atob(LIBRARY), (sign) => sign.charCodeAt(0)));
  readyDrop();
  readyOpen();
  readyForms();
  readyKeys();
  readyMap(act.chooseSector);
  byId('count').addEventListener('click', report);
  byId('view-close').addEventListener('click', () => { closeView(); byId('title').focus(); });
  document.body.dataset.ready = 'yes';
}

begin().catch((error) => say(`This page cannot work here: ${error.message}`, true));
