// A zip of stored files, made here: no packing, so that nothing can go wrong in it and every program opens it.

const TABLE = Uint32Array.from({ length: 256 }, (_, byte) => {
  let rest = byte;
  for (let bit = 0; bit < 8; bit++) rest = rest & 1 ? (rest >>> 1) ^ 0xedb88320 : rest >>> 1;
  return rest;
});

const sumOf = (bytes) => {
  let sum = 0xffffffff;
  for (const byte of bytes) sum = TABLE[(sum ^ byte) & 255] ^ (sum >>> 8);
  return ~sum >>> 0;
};

// Numbers of two and of four bytes, low byte first.
const record = (...fields) => {
  const bytes = fields.flatMap(([size, number]) => Array.from({ length: size }, (_, i) => (number >>> (8 * i)) & 255));
  return Uint8Array.from(bytes);
};

// The date of all files is 1 January 1980, the first that a zip can say: a SAM's disk has none.
const DATE = 0x21;
const UTF8 = 0x800;

export function zipOf(files) {
  const parts = [];
  const index = [];
  let at = 0;
  const put = (bytes) => { parts.push(bytes); at += bytes.length; };
  for (const { name, bytes } of files) {
    const path = new TextEncoder().encode(name);
    const sizes = [[4, bytes.length], [4, bytes.length], [2, path.length], [2, 0]];
    const about = [[2, 20], [2, UTF8], [2, 0], [2, 0], [2, DATE], [4, sumOf(bytes)], ...sizes];
    index.push(record([4, 0x02014b50], [2, 20], ...about, [2, 0], [2, 0], [2, 0], [4, 0], [4, at]), path);
    put(record([4, 0x04034b50], ...about));
    put(path);
    put(bytes);
  }
  const from = at;
  index.forEach(put);
  put(record([4, 0x06054b50], [2, 0], [2, 0], [2, files.length], [2, files.length], [4, at - from], [4, from], [2, 0]));
  return new Blob(parts, { type: 'application/zip' });
}
