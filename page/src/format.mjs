// Numbers, counts and file names as the page writes them.

const GROUPS = new Intl.NumberFormat('en');
export const grouped = (number) => GROUPS.format(number);

export const counted = (number, one, many = `${one}s`) => `${grouped(number)} ${number === 1 ? one : many}`;

// The name under which a file of a disk is given to the system. A disk may hold any bytes in a name, slashes and dots too: all but
// the plainest become %HH, so that no two names become one and none leads elsewhere. Names that Windows keeps for itself get
// their first letter so.
export function fileNameOf(name) {
  const hex = (byte) => `%${byte.toString(16).toUpperCase().padStart(2, '0')}`;
  const bytes = [...name.trimmed];
  const plain = (byte, i) => {
    const sign = String.fromCharCode(byte);
    const edge = i === 0 || i === bytes.length - 1;
    return /[A-Za-z0-9_+,=@#&()!~'-]/.test(sign) || (!edge && /[ .]/.test(sign)) ? sign : hex(byte);
  };
  const text = bytes.map(plain).join('');
  return /^(con|prn|aux|nul|com\d|lpt\d)(\.|$)/i.test(text) ? hex(bytes[0]) + text.slice(1) : text;
}

// The name under which a disk is downloaded: the time to the second is in it, and where the page gave that name before, a number. So
// it is not the name of the image that was opened, nor of one downloaded earlier.
export function stampedName(label, given, now = new Date()) {
  const [, front, end] = /^(.*?)(\.(?:mgt|dsk|img|sad))?$/is.exec(label);
  const bare = front.replace(/ \d{4}-\d\d-\d\d \d\d\.\d\d\.\d\d( \d+)?$/, '');
  const two = (number) => String(number).padStart(2, '0');
  const day = [now.getFullYear(), two(now.getMonth() + 1), two(now.getDate())].join('-');
  const time = [now.getHours(), now.getMinutes(), now.getSeconds()].map(two).join('.');
  for (let turn = 1; ; turn++) {
    const name = `${bare} ${day} ${time}${turn === 1 ? '' : ` ${turn}`}${end ?? '.mgt'}`;
    if (!given.has(name)) return name;
  }
}
