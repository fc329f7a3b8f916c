// The page: what is dropped or chosen, and how it is to be judged. The program answers; `answer` shows it.
import {TITLE, answer, shownSession} from './answer.mjs';
import {$, ends, leaveWhole, place, placeBoth, put} from './boxes.mjs';
import {Judge} from './judge.mjs';
import {lineNotes, noLineView, takeLine} from './line.mjs';
import {MOST_BYTES, cured, seeming, unpaired} from './seeming.mjs';
import {Session} from './session.mjs';
import {printed} from './telling.mjs';
import {make} from './views.mjs';
import {beginWork, endWork, stopWork} from './work.mjs';

let judge = null, aside = null, round = 0, taking = 0, left = null;

// ---- the judge

async function unpacked() {
  const packed = Uint8Array.from(atob($('#module').textContent.trim()), letter => letter.charCodeAt(0));
  const stream = new Blob([packed]).stream().pipeThrough(new DecompressionStream('gzip'));
  return WebAssembly.compile(await new Response(stream).arrayBuffer());
}

// Starts the judge; where it can't be, answers why not and what to do, and nothing else.
async function begin() {
  const missing = [['WebAssembly', globalThis.WebAssembly], ['workers', globalThis.Worker], ['DecompressionStream', globalThis.DecompressionStream]]
    .filter(([, has]) => !has).map(([name]) => name);
  if (missing.length) {
    return [`This browser has no ${missing.join(' and no ')}, so nothing can be judged in it.`, 'A browser of 2023 or later has it.'];
  }
  try {
    const module = await unpacked();
    const both = [0, 1].map(() => new Judge(module, $('#worker').textContent));
    const help = printed(await both[0].ask(['help'], {}));
    // from now on: what is dropped earlier ends nothing
    [judge, aside] = both;
    $('#version').textContent = help.split(':')[0].replace(/^ddcap /, '');
    return [];
  } catch (error) {
    return [`The judge in this page could not be started: ${error.message}.`, 'A browser of 2023 or later, with SIMD in WebAssembly, can run it.'];
  }
}
const ready = begin();
ready.then(lacks => lacks.length && note(...lacks));

// ---- what is given

function note(...paragraphs) {
  $('#note').replaceChildren(...paragraphs.map(part => typeof part === 'string' ? make('p', {}, part) : part));
  $('#note').hidden = paragraphs.length === 0;
}

const sized = bytes => bytes < 1e9 ? `${Math.ceil(bytes / 1e6)} MB` : `${(bytes / 1e9).toFixed(1)} GB`;

// Takes dropped or chosen files: two are a and b by their names, one goes where it was dropped, or to the first free end.
async function take(list, side) {
  const files = [...list].sort((one, other) => one.name < other.name ? -1 : 1).slice(0, 2);
  const taken = files.reduce((sum, file) => sum + file.size, 0);
  if (!files.length) return;
  if (taken > MOST_BYTES) {
    note(`${files.map(file => file.name).join(' and ')}: ${sized(taken)} is more than this page can hold, which is ${sized(MOST_BYTES)}.`,
      'The program itself has no such limit: ./ddcap check A B.');
    return;
  }
  let read;
  const mine = ++taking, from = document.activeElement;
  beginWork({what: `reading ${files.map(file => file.name).join(' and ')}`, size: taken, stop: () => notTaken('Reading was stopped.', from)});
  try {
    read = await Promise.all(files.map(async file => ({name: file.name, bytes: new Uint8Array(await file.arrayBuffer())})));
  } catch (error) {
    if (mine === taking) notTaken(`${files[0].name} could not be read: ${error.message}`, from, 'A folder can’t be dropped; drop the files in it.');
    return;
  }
  if (mine !== taking) return;
  pressed(null);
  if (read.length === 2) placeBoth(...read);
  else place(read[0], side);
  await judgeGiven(list.length > 2 ? [`Of ${list.length} files the first two were taken: ${ends.a.name} as a, ${ends.b.name} as b.`] : []);
}

// Files were not taken after all; what was judged before stays.
function notTaken(words, from, ...more) {
  taking += 1;
  endWork();
  note(words, ...more);
  focus($('#note'), from);
}

// ---- judging

function strange(side, file, found) {
  const button = found.cure && make('button', {type: 'button', onclick: async () => {
    try {
      for (const each of ['a', 'b'].filter(each => ends[each] && seeming(ends[each].bytes).cure === found.cure)) {
        const {name, bytes} = ends[each];
        put(each, {name, bytes: await cured(found.cure, bytes)});
      }
      judgeGiven();
    } catch {
      note(`${file.name} could not be unpacked: it is torn, or no gzip file.`);
    }
  }}, found.button);
  note(make('p', {}, make('b', {}, `${file.name} is ${found.is}. `), found.words), ...[button].filter(Boolean));
  $('#end-' + side).classList.add('bad');
}

// Over a wire text queues are always allowed for, and of a part of a run DDCMP alone can be judged, so nothing else is offered; what was chosen
// before comes back for the next capture.
function offer(given) {
  const isWhole = given.some(({seems: {kind}}) => kind === 'wire' || kind === 'packets');
  const offered = given.some(({seems}) => seems.isPart) ? ['line'] : isWhole ? ['queued', 'line'] : ['queued', 'plain', 'line'];
  const choices = [...document.querySelectorAll('[name=choice]')], wanted = left ?? choices.find(({checked}) => checked).id;
  const chosen = offered.includes(wanted) ? wanted : offered[0];
  for (const choice of choices) choice.disabled = !offered.includes(choice.id);
  left = chosen === wanted ? null : wanted;
  $('#' + chosen).checked = true;
}

async function judgeGiven(notes = [], isFocused = true) {
  const leaving = leaveWhole(), mine = ++round, from = document.activeElement;
  const given = ['a', 'b'].filter(side => ends[side]).map(side => ({side, ...ends[side], seems: seeming(ends[side].bytes)}));
  const odd = given.find(({seems}) => seems.kind === 'strange');
  note(...notes, ...leaving, ...lineNotes(ends.a, ofPackets), ...(given.length === 2 ? unpaired(given) : []));
  rest();
  offer(given);
  if (!given.length || odd) {
    $('#result').hidden = true;
    document.title = TITLE;
    if (odd) strange(odd.side, ends[odd.side], odd.seems);
    if (odd && isFocused) focus($('#note'), from);
    return;
  }
  const lacks = await ready;
  if (lacks.length) {
    note(...lacks);
    return;
  }
  if (given[0].seems.kind === 'packets') {
    await ofPackets({}, isFocused, notes.concat(leaving));
    return;
  }
  const session = new Session(judge, aside, given.map(it => ({...it, kind: it.seems.kind})), $('[name=choice]:checked').value);
  try {
    await answer(session, {isCurrent: () => mine === round, focused: box => isFocused && focus(box, from), judgeQueued});
  } catch (error) {
    if (mine === round) broken(error);
  }
}

// Takes the line out of a packet capture, and judges that. `asked` is as `wireIn` has it.
async function ofPackets(asked, isFocused = true, notes = []) {
  const mine = ++round, from = document.activeElement;
  rest();
  try {
    const found = await takeLine(judge, 'a', asked, () => mine === round);
    if (mine !== round) return;
    if (!found.fault) {
      await judgeGiven(notes, isFocused);
      return;
    }
    rest();
    $('#result').hidden = true;
    note(...notes, ...noLineView(found, ends.a.name, ofPackets));
    $('#end-a').classList.add('bad');
    if (isFocused) focus($('#note'), from);
  } catch (error) {
    if (mine === round) broken(error);
  }
}

// Nothing is judged any more, and nothing is said to be. What runs has its worker ended.
function rest() {
  for (const each of [judge, aside]) if (each && each.isBusy) each.stop();
  endWork();
  $('.between').className = 'between';
}

// No verdict was come to: that was stopped, or there is no memory.
function broken(error) {
  const hadFocus = endWork(), isStopped = error.message === 'stopped';
  rest();
  $('#result').hidden = true;
  if (isStopped) note('Judging was stopped.', make('button', {type: 'button', onclick: () => judgeGiven()}, 'Judge them again'));
  else {
    note(`Judging stopped: ${error.message}.`,
      'Where the texts are large, this page may lack the memory; the program itself needs a few MB: ./ddcap check A B.');
  }
  if (hadFocus) $('#note').focus();
}

// The focus goes to what was answered, unless it went elsewhere meanwhile.
function focus(box, from) {
  if ([document.body, from, $('#stop')].includes(document.activeElement)) box.focus({preventScroll: true});
}

// ---- the controls

// What a button in the verdict offers.
function judgeQueued() {
  $('#queued').checked = true;
  left = null;
  judgeGiven();
}

function pressed(name) {
  for (const button of $('#examples').children) button.setAttribute('aria-pressed', button.dataset.name === name);
}

function example(name, given) {
  taking += 1;
  put('a', null), put('b', null);
  for (const [side, text] of Object.entries(given.texts)) {
    put(side, {name: name + (given.ending || '.' + side), bytes: new TextEncoder().encode(text)});
  }
  $('#' + given.choice).checked = true;
  left = null;
  pressed(name);
  judgeGiven();
}

for (const side of ['a', 'b']) {
  const box = $('#end-' + side);
  box.querySelector('input').onchange = event => take(event.target.files, side);
  box.ondragover = () => box.classList.add('over');
  box.ondragleave = () => box.classList.remove('over');
}
document.ondragenter = document.ondragover = event => {
  event.preventDefault();
  document.body.classList.add('dropping');
};
document.ondragleave = event => event.relatedTarget || document.body.classList.remove('dropping');
document.ondrop = event => {
  event.preventDefault();
  document.body.classList.remove('dropping');
  const box = event.target.closest('.end');
  if (box) box.classList.remove('over');
  take(event.dataTransfer.files, box ? box.id.slice(-1) : null);
};
for (const choice of document.querySelectorAll('[name=choice]')) {
  choice.onchange = () => {
    left = null;
    judgeGiven([], false);
  };
}
$('#swap').onclick = () => {
  const {a, b} = ends;
  put('a', b), put('b', a);
  judgeGiven([], false);
};
$('#clear').onclick = () => {
  taking += 1;
  put('a', null), put('b', null);
  pressed(null);
  judgeGiven([], false);
  $('#end-a input').focus({preventScroll: true});
};
$('#stop').onclick = stopWork;
const examples = JSON.parse($('#given').textContent);
$('#examples').append(...Object.entries(examples).map(([name, given]) =>
  make('button', {type: 'button', 'aria-pressed': 'false', onclick: () => example(name, given)}, given.title)));
[...$('#examples').children].forEach((button, i) => { button.dataset.name = Object.keys(examples)[i]; });
const wanted = decodeURIComponent(location.hash.slice(1));
if (examples[wanted]) example(wanted, examples[wanted]);

globalThis.ddcap = {ready, ask: (words, texts) => judge.ask(words, texts), texts: () => shownSession().texts}; // for tools/tests/test_page
