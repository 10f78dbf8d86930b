import { writeFileSync } from 'node:fs';

// The picture of README.md, taken where a file is named for it.
export async function takePicture(path, { tab, disks, onFile }) {
  await tab.narrow(1240, 1290);
  await tab.evaluate(`location.reload(); 0`);
  await tab.until('the page is new', () => tab.evaluate(`document.body?.dataset.ready === 'yes' && document.getElementById('disk').hidden`));
  await tab.drop([disks.compilation, disks.broken]);
  await tab.says('2 images opened, 1 refused');
  await onFile('TUNES', 'Hide');
  await tab.says('TUNES is hidden');
  await tab.evaluate('scrollTo(0, 0)');
  writeFileSync(path, await tab.picture({ clip: { x: 0, y: 0, width: 1240, height: 1290, scale: 0.75 } }));
}
