// Lists the files of a disk image, saves one more and erases it again: node js/example.mjs IMAGE
import { readFile } from 'node:fs/promises';
import { Kind, Refused, load } from './varnucht.js';

const varnucht = await load();
try {
  const disk = varnucht.open(await readFile(process.argv[2]));
  for (const { slot, name, sectorCount } of disk.listing.entries) {
    console.log(`${String(slot).padStart(3)} ${String(name).padEnd(10)} ${String(sectorCount).padStart(4)} sectors`);
  }
  console.log(`${disk.listing.free} sectors free`);

  const body = new TextEncoder().encode('la la la');
  const saved = disk.save({ kind: Kind.CODE, name: 'SONG', start: { page: 1, offset: 32768 }, body });
  await saved.writeTo((place, bytes) => console.log(`write ${bytes.length} bytes at ${place}`));
  console.log(new TextDecoder().decode(disk.read('song')));
  await disk.erase('SONG').writeTo((place, bytes) => console.log(`write ${bytes.length} bytes at ${place}`));
  disk.read('SONG');
} catch (error) {
  if (!(error instanceof Refused)) throw error;
  console.log(`refused ${error.number}, slot ${error.slot}: ${error.words}`);
}
