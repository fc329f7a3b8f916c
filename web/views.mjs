// The parts of the page that show an answer. Each makes an element, or several, of what the program said.
import {accusedOf, countsOf, coverOf, explanationOf, rowsOf} from './telling.mjs';
import {phasesIn, sentence, sideBySide} from './cause.mjs';
import {linesOf, wrongWith} from './seeming.mjs';

const MOST_SHOWN = 400_000;

// An element with properties, or attributes where the name has a hyphen or is `role` or `scope`, and what is in it.
export function make(tag, properties = {}, ...inside) {
  const it = document.createElement(tag);
  for (const [name, value] of Object.entries(properties)) {
    if (name.includes('-') || name === 'role' || name === 'scope') it.setAttribute(name, value);
    else it[name] = value;
  }
  it.append(...inside);
  return it;
}

export function link(text, name, bytes, type = 'text/plain') {
  return make('a', {className: 'button', href: URL.createObjectURL(new Blob([bytes], {type})), download: name}, text);
}

const rows = pairs => pairs.flatMap(([name, value]) => [make('dt', {}, name), make('dd', {}, ...[value].flat())]);

// Lines of a text, those that `isHere` picks marked.
export function textView(text, isHere = () => false) {
  const box = make('pre', {className: 'text', tabIndex: 0});
  const shown = text.length > MOST_SHOWN ? text.slice(0, text.lastIndexOf('\n', MOST_SHOWN) + 1) : text;
  let plain = [];
  for (const line of shown.replace(/\n$/, '').split('\n')) {
    if (isHere(line)) {
      box.append(plain.join(''), make('span', {className: 'here'}, line));
      plain = [];
    } else plain.push(line + '\n');
  }
  box.append(plain.join(''));
  if (shown.length < text.length) box.append(`.. ${text.length - shown.length} more letters`);
  return box;
}

// Lines of a capture with their numbers, one of them marked: as the wrong one, or as one to look at.
function excerptView(lines, line, mark = 'here') {
  const box = make('div', {className: 'excerpt mono', tabIndex: 0, role: 'group', 'aria-label': `lines near ${line}`});
  for (const {number, text, cut} of lines) {
    const shown = text.replaceAll('\r', '␍') + (cut ? '..' : '');
    box.append(make('div', {className: number === line ? mark : ''}, make('span', {}, String(number)), shown));
  }
  return box;
}

const around = (bytes, line) => linesOf(bytes, Math.max(1, line - 4), line + 2);

const mistakes = (fault, bytes) =>
  fault.fault === 'part' ? ['it heads a part of a run, which can’t be judged so'] : linesOf(bytes, fault.line, fault.line).flatMap(wrongWith);

// A fault of a text in a sentence.
export function brokenView(fault, session) {
  const [first = fault.fault] = mistakes(fault, session.bytesOf(fault.side));
  return make('p', {className: 'cause'}, `Line ${fault.line} of ${session.nameOf(fault.side)} can’t be read: ${first}.`);
}

// A fault of a text: the line, and what may be wrong with it.
export function faultView(fault, session) {
  const bytes = session.bytesOf(fault.side), found = mistakes(fault, bytes);
  const words = fault.line === 1 ? 'The first line has to be the head: “ddcap 1 1.1 1.2”, the format, this node’s address and its peer’s.'
    : 'A record is a line as “u start”, “s BYTES”, “r NUMBER BYTES”, “k NUMBER BYTES” or “n BYTES”, in small hexadecimal digits.';
  return [make('h3', {}, `Line ${fault.line} of ${session.nameOf(fault.side)}: ${fault.fault}`), excerptView(around(bytes, fault.line), fault.line),
    ...(found.length ? [make('ul', {}, ...found.map(text => make('li', {}, raised(text) + '.')))] : []),
    make('p', {className: 'soft'}, words + ' docs/CAPTURES.md has all kinds of lines.')];
}

// What is not known yet of the recording, or why it won't be, in the place where it will be told; `again` tries the small changes once more.
function lateView({stage, lacks}, again) {
  if (!lacks) return [stage === 'first' ? 'small changes of it are tried next' : 'small changes of it are being tried ..'];
  return [`small changes of it were not all tried: ${lacks}. `, make('button', {type: 'button', onclick: again}, 'Try them again')];
}

// The cause of a refusal, at once: what happened, in a sentence; what was seen and is allowed; the refused line beside the one that it
// contradicts; the rule, who is accused, and last the change of a recording that would mend it, once that is known. `first` is the program's first
// line; `judgeQueued` judges anew, as nodes with a queue.
export function causeView(known, session, first, {judgeQueued, again}) {
  const {refusal, text, meaning, stage, isAccusedLate} = known;
  const {refused, check, edit} = refusal, told = rowsOf(text, 'unit'), {texts, isWire} = session;
  const meant = explanationOf(meaning).find(part => part.text).text;
  const said = sentence(refused, session.names.length === 1) || meant;
  const parts = [make('p', {className: 'cause'}, isWire ? `As far as it could be placed, ${lowered(said)}` : said)];
  if (refusal.queued) parts.push(queueView(refusal, session, judgeQueued));
  if (check) parts.push(checkView(check));
  const columns = sideBySide(refusal, texts, told.unit[0]).filter(({isRefused}) => isRefused || stage !== 'first');
  parts.push(make('div', {className: 'pair lines'}, ...columns.map(column => columnView(column, session.nameOf(column.side)))));
  const likely = edit.map(({words}) => words).join('; or ');
  const place = first.match(/^(?:unexplained|apart:) ([ab]) unit (\d+) line (\d+)/);
  const where = place && `unit ${place[2]} of ${place[1]} (counted from 0), whose first byte is on line ${place[3]} of ${session.sourceName}`;
  const found = [['On the wire', where], ['The rule', (check && check.rule) || meant],
    ['Accused', isWire || isAccusedLate ? '' : accusedOf({text})], ['The recording', likely && `likely at fault: ${likely}`]];
  const pairs = found.filter(([, value]) => value).map(([name, value]) => [name, codes(value)]);
  if (stage !== 'all' && !session.isOneEnd) pairs.push(['The recording', lateView(known, again)]);
  parts.push(make('dl', {}, ...rows(pairs)));
  return parts;
}

// What was seen, and what is allowed there.
function checkView({check, seen, allowed}) {
  const phases = words => check === 'phase' ? make('span', {className: 'phases'}, phasesIn(words)) : '';
  const boxed = (name, title, words) => make('div', {className: name}, make('small', {}, title), make('b', {}, words), phases(words));
  return make('div', {className: 'pair'}, boxed('seen', 'Seen', seen), boxed('allowed', 'Allowed there', allowed));
}

// Whether a queue explains a refusal, in a sentence.
function queueSentence({refused, queued: {answer, side, line, number, name}}, session) {
  if (answer === 'fault') return `A queue between NSP and DDCMP would excuse this line. With one, line ${line} of ${session.nameOf(side)} has a fault.`;
  if (answer !== 'refused') {
    const judged = answer === 'passed' ? 'this end passes' : 'the pair is accepted';
    return `A node with a queue between NSP and DDCMP may do this, and most real nodes have one. Judged as such, ${judged}.`;
  }
  const because = number === refused.number ? 'for the same reason' : `for reason ${number}, ${name}`;
  return side === refused.side && line === refused.line ? `A queue between NSP and DDCMP is no excuse: with one this line is refused too, ${because}.`
    : `A queue between NSP and DDCMP would excuse this line. With one, line ${line} of ${session.nameOf(side)} is refused, ${because}.`;
}

// The same with a button that judges so, where that says something else.
function queueView(refusal, session, judgeQueued) {
  const {queued, refused} = refusal, isSame = queued.side === refused.side && queued.line === refused.line;
  const button = make('button', {type: 'button', onclick: judgeQueued}, 'Judge as nodes with a queue');
  return make('div', {className: 'queue'}, make('p', {}, queueSentence(refusal, session)), ...(isSame ? [] : [button]));
}

const lowered = text => text[0].toLowerCase() + text.slice(1);
const raised = text => text[0].toUpperCase() + text.slice(1);

// A line among its neighbours, with what it is.
function columnView({title, words, side, line, lines, isRefused}, name) {
  const head = make('p', {}, make('b', {}, title), make('span', {className: 'soft'}, `line ${line} of ${name}`));
  if (words) head.append(make('span', {className: 'words'}, words));
  return make('div', {className: 'column'}, head, excerptView(lines, line, isRefused ? 'here' : 'other'));
}

// The counts of an accepted pair, or of an end that passed.
export function countsView(text) {
  const counts = countsOf(text);
  if (!counts) return [textView(text)];
  const sides = ['a', 'b'].filter(side => counts[side]);
  const head = make('tr', {}, make('th', {scope: 'col'}, 'counted'), ...sides.map(side => make('th', {scope: 'col', className: 'number'}, side)));
  const body = counts.names.map((name, i) => make('tr', {}, make('th', {scope: 'row'}, name),
    ...sides.map(side => make('td', {className: 'number'}, counts[side][i].toLocaleString('en')))));
  return [make('div', {className: 'scroll'}, make('table', {}, make('thead', {}, head), make('tbody', {}, ...body))),
    make('p', {className: 'soft'}, '“periods” are starts of the line, “up” messages that were delivered. ',
      'A run that met few rules says little: look at Rules met.')];
}

// How both ends were, or the one, in columns.
function statesView(states, links) {
  const causes = state => Object.entries(state.open_causes || {}).map(([reason, count]) => `reason ${reason}: ${count}`).join(', ') || 'none';
  const linkWords = ({own, far, phase, given, acknowledged, received}) =>
    make('div', {}, `${own} to ${far ?? '?'}, ${phase}: given ${given}, acknowledged ${acknowledged}, received ${received}`);
  const linksOf = state => links.filter(({side}) => side === state.side).map(linkWords);
  const table = [['', state => [make('b', {}, state.side), ` after ${state.records} records`]], ['Station', state => [state.station]],
    ['Start', state => [`${state.start ?? 'not known'}${state.goes_with ? `, goes with start ${state.goes_with} of the other end` : ''}`]],
    ['R, received in order', state => [state.r]], ['A, acknowledged', state => [state.a]], ['N, given so far', state => [state.n]],
    ['T, next to send', state => [state.t]], ['NAKs owed or open', state => [causes(state)]],
    ...(links.length ? [['Links', state => linksOf(state).length ? linksOf(state) : ['none']]] : [])];
  const rowOf = ([name, cell], i) => make('tr', {}, make('th', {scope: 'row'}, name),
    ...states.map(state => make(i ? 'td' : 'th', i ? {} : {scope: 'col'}, ...cell(state).map(part => part instanceof Node ? part : String(part)))));
  return make('div', {className: 'scroll wide', tabIndex: 0}, make('table', {}, ...table.map(rowOf)));
}

function recordRows({kind, hint, bytes, words, ddcmp, routing, nsp}) {
  const kinds = {s: 'sent', r: 'received', k: 'received, and its packet kept', n: 'noise', u: 'the user'};
  const known = [['What', (kinds[kind] || kind) + (hint === undefined || hint === null ? '' : `, the other end’s unit ${hint}`)], ['Words', words],
    ['DDCMP', ddcmp], ['Routing', routing], ['NSP', nsp], ['Bytes', bytes]];
  return rows(known.filter(([, value]) => value));
}

// What small changes told, where none helps. `fewest` records have to follow.
function changesWords({tried, left, left_from: from, records_behind: records}, session, fewest = 20) {
  const first = from ? `, the nearest of them on line ${from.line} of ${session.nameOf(from.side)}` : '';
  const more = left ? `; ${left} more were not tried, as the files are large${first}` : '';
  const follow = (records === 1 ? '1 record follows' : `${records} records follow`) + more;
  if (records === null || records === undefined) return 'No small changes were tried, since a capture can’t be read again.';
  if (records < fewest) return `Small changes were not tried: only ${follow} (${fewest} are needed).`;
  return `${tried ? `None of ${tried} small changes nearby would make the pair acceptable` : 'No small changes were tried'} (${follow}).`;
}

// More of a refusal: what to look for, whether it is the recording, what the line says, and how both ends were.
export function whyView({refusal, text, meaning, stage}, session) {
  if (!refusal) return text ? [textView(text)] : [make('p', {}, 'The cause is being looked for.')];
  const {refused, record, state, link, edit, edits} = refusal;
  const isHere = ({text: words = ''}) => !/^(By whose fault|A pair that is refused)/.test(words);
  const parts = [make('h3', {}, `Reason ${refused.number}, ${refused.name}`), ...explanationOf(meaning).filter(isHere).map(part =>
    part.items ? make('ul', {}, ...part.items.map(item => make('li', {}, ...codes(item)))) : make('p', {}, ...codes(part.text)))];
  if (edits && stage === 'all') {
    const found = [make('p', {}, 'Likely. Each of these small changes would make the pair acceptable:'),
      make('ul', {}, ...edit.map(({words}) => make('li', {}, ...codes(words))))];
    const none = make('p', {}, changesWords(edits, session));
    parts.push(make('h3', {}, 'Is it the recording?'), ...(edit.length ? found : [none]));
  }
  if (record) parts.push(make('h3', {}, 'What the line says'), make('dl', {className: 'record'}, ...recordRows(record)));
  const bySide = [...state].sort((one, other) => one.side < other.side ? -1 : 1);
  const title = state.length > 1 ? 'How both ends were just before' : 'How it was just before';
  if (state.length) parts.push(make('h3', {}, title), statesView(bySide, link));
  return parts;
}

// A text whose parts between backquotes, and options of the program, are code.
const codes = text => text.split(/`([^`]*)`|(--[a-z]+)/).filter(part => part !== undefined)
  .map((part, i) => i % 2 ? make('code', {className: part.startsWith('--') ? 'option' : ''}, part) : part);

export function coverView(text) {
  const cover = coverOf(text);
  if (!cover) return [textView(text)];
  const head = make('tr', {}, make('th', {scope: 'col'}, 'rule'),
    ...['a', 'b'].map(side => make('th', {scope: 'col', className: 'number'}, side)));
  const body = cover.rows.map(([name, ...counts]) => make('tr', {}, make('th', {scope: 'row'}, name),
    ...counts.map(count => make('td', {className: 'number'}, count))));
  return [make('p', {}, cover.through.join('; ') + '. Each row is one of the rules; a dot is none.'),
    make('div', {className: 'scroll'}, make('table', {}, make('thead', {}, head), make('tbody', {}, ...body)))];
}

// The picture, in a tree of its own, since it brings its own style.
export function pictureView(bytes) {
  const text = new TextDecoder().decode(bytes), [, style = ''] = text.match(/<style>([^]*?)<\/style>/) || [];
  const drawn = new DOMParser().parseFromString(text.replace(/<style>[^]*?<\/style>/, ''), 'image/svg+xml').documentElement;
  const sheet = new CSSStyleSheet();
  sheet.replaceSync(`:host { display: block; overflow-x: auto; }
    svg { max-width: 100%; min-width: 34rem; height: auto; display: block; margin: 0 auto; }
    ${style.replaceAll('&apos;', "'")}`);
  drawn.setAttribute('role', 'img');
  drawn.setAttribute('aria-label', 'Both ends, and what passed between them; the ladder has the same as text');
  const host = make('div');
  const root = host.attachShadow({mode: 'open'});
  root.adoptedStyleSheets = [sheet];
  root.append(document.importNode(drawn, true));
  return host;
}

// What the words and signs of the ladder and the picture mean.
export function keyView() {
  const signs = [['DATA 2/1', 'a data message with NUM 2 and RESP 1, and what is in it'], ['ACK /1', 'an acknowledgement, RESP 1'],
    ['NAK, REP', 'DDCMP’s other answers'], ['STRT, STACK', 'a start'], ['CI, CC, DI, DC', 'a link is opened, accepted, closed'],
    ['> <', 'it comes in this row'], ['.', 'it comes in another row'], ['x', 'it never comes'], ['~', 'it came damaged']];
  return make('details', {className: 'key'}, make('summary', {}, 'What the words and signs mean'), make('dl', {className: 'record'}, ...rows(signs)));
}
