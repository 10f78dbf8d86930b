// A report over the shelf: every image on it as it is now, refused ones too.
import { byId, make } from './dom.mjs';
import { counted, grouped } from './format.mjs';
import { state } from './state.mjs';

const table = (caption, heads, rows) =>
  make('table', {}, make('caption', {}, caption),
    make('thead', {}, make('tr', {}, ...heads.map((head, i) => make('th', { scope: 'col', class: i === 0 ? 'text' : null }, head)))),
    make('tbody', {}, ...rows.map(([first, ...rest]) =>
      make('tr', {}, make('th', { scope: 'row', class: 'text' }, first), ...rest.map((number) => make('td', {}, grouped(number)))))));

function classWords({ from, to }) {
  if (to === null) return `${grouped(from)} and more`;
  return from === to ? grouped(from) : `${grouped(from)} to ${grouped(to)}`;
}

const reportWords = ({ disks, accepted, files, fileSectors, freeSectors }) =>
  `${counted(disks, 'disk')}, ${grouped(accepted)} accepted; ${counted(files, 'file')} with ${counted(fileSectors, 'sector')}, ${counted(freeSectors, 'sector')} free`;

export function drawReport() {
  const report = state.library.report();
  for (const item of state.items) report.add(item.image);
  const refused = report.refusals.map(({ number, words: why, disks }) => [`${number}: ${why}`, disks]);
  byId('report').hidden = false;
  byId('report').replaceChildren(...[
    make('p', { id: 'report-status' }, reportWords(report)),
    refused.length === 0 ? null : table('Refused disks', ['reason', 'disks'], refused),
    table('Files by kind', ['kind', 'files'], report.kinds.map(({ kind, words: name, files }) => [`${kind} ${name}`, files])),
    table('Files by their sectors', ['sectors', 'files'], report.classes.map((each) => [classWords(each), each.files])),
  ].filter((part) => part !== null));
}
