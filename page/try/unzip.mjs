// The files of a zip of stored files, by its index; every field that a program looks at is looked at.
import assert from 'node:assert/strict';

function sum(bytes) {
  let rest = 0xffffffff;
  for (const byte of bytes) {
    rest ^= byte;
    for (let bit = 0; bit < 8; bit++) rest = (rest >>> 1) ^ (rest & 1 ? 0xedb88320 : 0);
  }
  return (rest ^ 0xffffffff) >>> 0;
}

export function unzip(zip) {
  const end = zip.length - 22;
  assert.equal(zip.readUInt32LE(end), 0x06054b50);
  const many = zip.readUInt16LE(end + 10);
  let at = zip.readUInt32LE(end + 16);
  assert.equal(at + zip.readUInt32LE(end + 12), end);
  const files = new Map();
  for (let i = 0; i < many; i++) {
    assert.equal(zip.readUInt32LE(at), 0x02014b50);
    const [length, from] = [zip.readUInt16LE(at + 28), zip.readUInt32LE(at + 42)];
    const name = zip.toString('utf8', at + 46, at + 46 + length);
    assert.equal(zip.readUInt32LE(from), 0x04034b50);
    assert.deepEqual(zip.subarray(from + 4, from + 30), zip.subarray(at + 6, at + 32), 'the two records say the same');
    const size = zip.readUInt32LE(at + 20);
    const bytes = zip.subarray(from + 30 + length, from + 30 + length + size);
    assert.deepEqual([zip.readUInt16LE(at + 10), zip.readUInt32LE(at + 24), zip.readUInt32LE(at + 16)], [0, size, sum(bytes)]);
    assert.ok(!files.has(name));
    files.set(name, bytes);
    at += 46 + length;
  }
  assert.equal(at, end);
  return files;
}
