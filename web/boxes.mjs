// The boxes of the page: what is in them, and what they say.
import {opposite} from './cause.mjs';
import {isWhole, seeming} from './seeming.mjs';

export const $ = selector => document.querySelector(selector);

const EMPTY = {a: 'Drop its capture here, or choose it', b: 'Its capture, if you have it'};
const NOT_NEEDED = 'Not needed: the other text is of both ends';
const NAMED = /\.([ab])(\.gz|\.txt)?$/i;
const TITLES = {a: 'One end', b: 'The other end', wire: 'What passed on the line, of both ends', script: 'A script of both ends',
  packets: 'A packet capture'};
// Of each side a file, as {name, bytes}, or null; where the bytes are the text of the line in a packet capture, also that, as `packets`.
export const ends = {a: null, b: null};

// Puts a file into the box of a side; null empties it.
export function put(side, file) {
  ends[side] = file;
  for (const each of ['a', 'b']) describe(each);
  const box = $('#end-' + side);
  box.classList.remove('good', 'bad');
  box.querySelector('input').value = '';
  $('#swap').disabled = $('#clear').disabled = !ends.a && !ends.b;
}

// Says in a box what is in it, or what belongs there.
function describe(side) {
  const file = ends[side], other = ends[opposite(side)], box = $('#end-' + side), isNeeded = file || !other || !isWhole(other.bytes);
  box.classList.toggle('full', file !== null);
  box.classList.toggle('unneeded', !isNeeded);
  box.querySelector('.title').textContent = (file && TITLES[seeming(file.bytes).kind]) || TITLES[side];
  box.querySelector('.what').textContent = file ? `${file.name}, ${(file.packets || file.bytes).length.toLocaleString('en')} bytes`
    : isNeeded ? EMPTY[side] : NOT_NEEDED;
  const isText = file && seeming(file.bytes).kind !== 'packets';
  const begin = new TextDecoder().decode((isText ? file.bytes : new Uint8Array()).subarray(0, 400)).replace(/[^\x20-\x7e\n]/g, '·');
  box.querySelector('.head').textContent = begin.split('\n').slice(0, 3).map(line => line.slice(0, 48)).join('\n');
}

// The side that a file's name tells by its ending, .a or .b; or undefined.
const named = file => (file.name.match(NAMED) || [])[1]?.toLowerCase();

// Puts two files on the sides that their names tell, or in their order.
export function placeBoth(first, second) {
  const isTurned = named(first) !== named(second) && (named(first) === 'b' || named(second) === 'a');
  put('a', isTurned ? second : first);
  put('b', isTurned ? first : second);
}

// Puts one file where it belongs: on the side on which it was dropped, or that its name tells, or where there is room.
export function place(file, side) {
  const told = named(file), free = told || (ends.a ? 'b' : 'a'), there = ends[free];
  if (isWhole(file.bytes)) put('a', file), put('b', null);
  else if (side) put(side, file);
  else if (ends.a && ends.b) put(opposite(told || 'a'), null), put(told || 'a', file);
  else {
    if (there && named(there) !== told) put(opposite(told), there);
    put(free, file);
  }
  for (const other of ['a', 'b']) {
    if (ends[other] && ends[other] !== file && isWhole(ends[other].bytes)) put(other, null);
  }
}

// A wire text or a script has no other end: what is beside it goes. Answers what has to be said of that.
export function leaveWhole() {
  const side = ['a', 'b'].find(side => ends[side] && isWhole(ends[side].bytes));
  if (!side) return [];
  const whole = ends[side], other = ends[opposite(side)];
  if (side === 'b') put('a', whole);
  put('b', null);
  return other ? [`${whole.name} is of both ends. So it is judged by itself, and ${other.name} is left out.`] : [];
}
