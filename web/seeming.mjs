// What a dropped file seems to be, told from its bytes before anything is judged: a capture, a wire text, a script, a packet capture; or something
// else, with words for who dropped it, and where the page can mend it, how.

export const MOST_BYTES = 1_000_000_000;

const BEGINNINGS = [
  ['1f8b', 'a gzip file', 'gzip'],
  ['504b0304', 'a zip archive', 'packed'], ['fd377a585a00', 'an xz file', 'packed'], ['425a68', 'a bzip2 file', 'packed'],
  ['28b52ffd', 'a zstd file', 'packed'], ['377abcaf271c', 'a 7z archive', 'packed'],
  ['25504446', 'a PDF', 'other'], ['89504e47', 'a picture (PNG)', 'other'], ['ffd8ff', 'a picture (JPEG)', 'other'],
  ['7f454c46', 'a program (ELF)', 'other'], ['4d5a', 'a program (Windows)', 'other'],
  ['fffe', 'text in UTF-16', 'utf16'], ['feff', 'text in UTF-16', 'utf16'],
];

const WHAT_IS_WANTED = 'A capture is a text whose first line is like “ddcap 1 1.1 1.2”; what passed on a line begins with “ddwire 1”.';
const CURES = {
  gzip: {words: 'It can be unpacked here.', cure: 'unpack', button: 'Unpack it and judge'},
  packed: {words: 'Unpack it, and drop the text that is in it.'},
  other: {words: WHAT_IS_WANTED},
  utf16: {words: 'A capture is plain ASCII.', cure: 'utf16', button: 'Turn it into ASCII and judge'},
};
const PACKETS = ['d4c3b2a1', 'a1b2c3d4', '4d3cb2a1', 'a1b23c4d', '0a0d0d0a'];  // how a pcap begins, or a pcapng
const KINDS = {ddcap: 'capture', ddwire: 'wire', ddplay: 'script'};

const hex = bytes => Array.from(bytes, byte => byte.toString(16).padStart(2, '0')).join('');
const ascii = bytes => String.fromCharCode(...bytes);

// {kind: 'capture', 'wire', 'script' or 'packets', isPart}, where `isPart` says that a capture is a part of a run; or {kind: 'strange', is, words,
// cure, button}: `cure` goes with `button`.
export function seeming(bytes) {
  if (bytes.length === 0) return {kind: 'strange', is: 'empty', words: WHAT_IS_WANTED};
  const front = hex(bytes.subarray(0, 8));
  if (PACKETS.includes(front.slice(0, 8))) return {kind: 'packets'};
  const begun = BEGINNINGS.find(([start]) => front.startsWith(start));
  if (begun) return {kind: 'strange', is: begun[1], ...CURES[begun[2]]};
  if (front.startsWith('efbbbf')) return {kind: 'strange', is: 'a text with a byte order mark', cure: 'mark', button: 'Take the mark out and judge',
    words: 'Some editor put three bytes before the first line.'};
  const begin = bytes.subarray(0, 65536);
  const odd = begin.findIndex(byte => byte > 126 || (byte < 32 && byte !== 9 && byte !== 10 && byte !== 13));
  if (odd >= 0) return {kind: 'strange', is: 'no plain text', words: `Byte ${odd} is ${hex(bytes.subarray(odd, odd + 1))}. ${WHAT_IS_WANTED}`};
  const first = ascii(begin.subarray(0, 200)).split('\n')[0];
  const kind = KINDS[first.split(' ')[0]];
  if (!kind) return {kind: 'strange', is: 'no capture', words: `Its first line is “${first.slice(0, 60).trim()}”. ${WHAT_IS_WANTED}`};
  if (first.endsWith('\r')) return {kind: 'strange', is: 'a text with CR at the end of its lines', cure: 'crlf', button: 'Take the CRs out and judge',
    words: 'Windows ends lines so; ddcap takes LF alone, since a text has one spelling.'};
  return {kind, isPart: kind === 'capture' && first.endsWith(' part')};
}

// Whether bytes are a text of both ends, beside which no other belongs.
export const isWhole = bytes => ['wire', 'script', 'packets'].includes(seeming(bytes).kind);

// What to say of two captures whose first lines are not those of the two ends of one line; nothing where they are, or are no first lines. `given`
// are two of {name, bytes}.
export function unpaired(given) {
  const [one, other] = given.map(({bytes}) => ascii(bytes.subarray(0, 80)).match(/^ddcap \d (\S+) (\S+)(?: part)?\n/));
  if (!one || !other || (one[1] === other[2] && one[2] === other[1])) return [];
  const [first, second] = given.map(({name}) => name);
  if (one[1] === other[1]) return [`Both first lines name ${one[1]} as the node. Are ${first} and ${second} recordings of the same end?`];
  return [`The first line of ${first} is of node ${one[1]} and its peer ${one[2]}, that of ${second} of node ${other[1]} and its peer ${other[2]}. `
    + 'Are they the two ends of one line?'];
}

// The bytes after a cure that `seeming` named.
export async function cured(cure, bytes) {
  if (cure === 'unpack') {
    const stream = new Blob([bytes]).stream().pipeThrough(new DecompressionStream('gzip'));
    return new Uint8Array(await new Response(stream).arrayBuffer());
  }
  if (cure === 'mark') return bytes.slice(3);
  if (cure === 'crlf') return bytes.filter((byte, at) => byte !== 13 || bytes[at + 1] !== 10);
  return new TextEncoder().encode(new TextDecoder(bytes[0] === 0xff ? 'utf-16le' : 'utf-16be').decode(bytes).replaceAll('\r\n', '\n'));
}

// The lines from one number to another, counted from 1, as {number, text, ends}: `ends` is false where the text breaks off without an LF.
export function linesOf(bytes, from, to) {
  const found = [];
  for (let number = 1, at = 0; at < bytes.length && number <= to; number++) {
    const end = bytes.indexOf(10, at), stop = end < 0 ? bytes.length : end;
    if (number >= from) found.push({number, text: ascii(bytes.subarray(at, Math.min(stop, at + 2000))), ends: end >= 0, cut: stop - at > 2000});
    at = stop + 1;
  }
  return found;
}

// The number of the last line that a pattern fits, from one number to another; 0 where there is none.
export function lastLine(bytes, pattern, to, from = 1) {
  let found = 0;
  for (let number = 1, at = 0; at < bytes.length && number <= to; number++) {
    const end = bytes.indexOf(10, at), stop = end < 0 ? bytes.length : end;
    if (number >= from && pattern.test(ascii(bytes.subarray(at, Math.min(stop, at + 80))))) found = number;
    at = stop + 1;
  }
  return found;
}

// What may be wrong with a line that was called faulty, in words.
export function wrongWith({text, ends}) {
  const rows = [
    [!ends, 'the text breaks off here: the last line has to end with an LF too'],
    [text.endsWith('\r'), 'it ends with a CR'],
    [text === '', 'it is empty: a capture has no empty lines'],
    [/^\s*(#|\/\/|;)/.test(text), 'it looks like a comment, and a capture has none'],
    [/^ | $/.test(text), 'it begins or ends with a space'],
    [/\t/.test(text), 'it has a tab: parts are separated by one space'],
    [/ {2}/.test(text), 'it has two spaces in a row'],
    [/^[A-Z]/.test(text), 'its first letter is a capital'],
    [/ [0-9a-f]*[A-F][0-9A-Fa-f]*$/.test(text), 'it has a capital digit: hexadecimal digits are 0 to 9 and a to f'],
    [/^(s|n|x|[rkd] -?\d+) ([0-9a-f]{2})*[0-9a-f]$/.test(text), 'its digits are odd in number: a byte has two'],
    [/^[rkd] [0-9a-f]{9,}$/.test(text), 'the number of the unit is missing before the bytes'],
    [/^\d[\d:.]+ /.test(text), 'it begins with a time or a number, and a record with a letter'],
  ];
  return rows.filter(([is]) => is).map(([, words]) => words);
}
