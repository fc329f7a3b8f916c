// What the page shows of its work, once that has taken half a second: what it does, how far it is, and a button that stops it.
import {$} from './boxes.mjs';

const QUIET = 500;
let now = null, timer;

const megabytes = (bytes, all) => (bytes / 1e6).toFixed(all < 1e7 ? 1 : 0);

// How far it is: `judging, 34 of 100 MB`; where all that there is was read, and some again, or nobody knows how much there is, what was read alone.
const wordsOf = ({what, size, isOnce}, read) =>
  isOnce && read <= size ? `${what}, ${megabytes(read, size)} of ${megabytes(size, size)} MB` : `${what}, ${megabytes(read, read)} MB read`;

// Work begins: `what` is done over texts of `size` bytes, which are read once or more often; `stop` is what the button does.
// What was answered before is no longer shown where it `isAnew`.
export function beginWork(work) {
  now = work;
  workTold(0);
  clearTimeout(timer);
  timer = setTimeout(() => {
    $('#work').hidden = false;
    if (work.isAnew) $('#result').hidden = true;
    $('#status').textContent = work.what;
  }, $('#work').hidden ? QUIET : 0);
}

// So many bytes were read.
export function workTold(read) {
  if (!now) return;
  const bar = $('#work progress'), isKnown = now.isOnce && read <= now.size;
  $('#work span').textContent = wordsOf(now, read);
  if (isKnown) bar.value = read / (now.size || 1);
  else bar.removeAttribute('value');
}

// It has ended. Answers whether its button had the focus, which is nowhere then.
export function endWork() {
  clearTimeout(timer);
  const hadFocus = document.activeElement === $('#stop');
  $('#work').hidden = true;
  now = null;
  return hadFocus;
}

export const stopWork = () => now && now.stop();
