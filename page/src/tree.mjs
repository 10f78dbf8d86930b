// The subdirectories and what lies beneath them, as lists inside lists.
import { kindWords } from '../../js/varnucht.js';
import { byId, make } from './dom.mjs';
import { counted } from './format.mjs';
import { nameButton } from './list.mjs';
import { refusedWords } from './status.mjs';
import { entries, state } from './state.mjs';

// Made without calls inside calls: subdirectories may lie 255 deep.
function listOf(tree, choose) {
  const around = [make('ul', {})];
  for (const { entry, depth } of tree.all) {
    around.length = depth + 1;
    const about = entry.isDirectory ? '' : `, ${counted(entry.sectorCount, 'sector')}`;
    const line = make('li', {}, nameButton(entry, choose, 'tree'), ` ${kindWords(entry.kind)}${about}`);
    around[depth].append(line);
    if (entry.isDirectory) {
      const inner = make('ul', {});
      line.append(inner);
      around.push(inner);
    }
  }
  return around[0];
}

export function drawTree(choose) {
  byId('tree-box').hidden = !entries().some((entry) => entry.isDirectory || entry.parentCode !== 0);
  if (byId('tree-box').hidden) return;
  try {
    byId('tree').replaceChildren(listOf(state.item.disk.tree(), choose));
  } catch (refused) {
    // A disk whose directories do not fit together is a disk all the same.
    byId('tree').replaceChildren(make('p', { class: 'refused' }, refusedWords(refused)));
  }
}
