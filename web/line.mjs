// The line in a packet capture: the text of what passed on it takes the place of the packets, with what it was taken from.
import {$, ends, put} from './boxes.mjs';
import {make} from './views.mjs';
import {beginWork, workTold} from './work.mjs';

// Takes the line out of the packet capture of a side, as `asked` of `wireIn`: its text is in the box then. Answers why there is none, as {fault,
// lines}, or what is said of it. An Error where that is stopped. `isCurrent()` tells whether it is still wanted.
export async function takeLine(judge, side, asked, isCurrent) {
  const file = ends[side], packets = file.packets || file.bytes;
  beginWork({what: `reading the packets of ${file.name}`, size: packets.length, isOnce: true, isAnew: true, stop: () => judge.stop()});
  const found = await judge.wireIn(packets, asked, workTold), lines = found.lines?.length ? found.lines : file.lines;
  if (isCurrent() && !found.fault) put(side, {name: file.name, bytes: found.text, packets, lines, taken: {...found, ...asked}});
  if (isCurrent() && found.fault) file.lines = lines;
  return found;
}

const button = (words, onclick) => make('button', {type: 'button', onclick}, words);

// Buttons for the lines of a file, but for the one that was taken; `again` takes what it is given.
function linesView(lines, again, ports = []) {
  const [one, other] = lines, isCrossed = lines.length === 2 && one.from === other.to && one.to === other.from;
  const others = lines.filter(({port}) => ports.length !== 1 || port !== ports[0]);
  const asOne = () => again({ports: [one.port, other.port]});
  const both = isCrossed && ports.length < 2 ? [button('Both as one line: each end calls the other', asOne)] : [];
  return make('div', {className: 'lines'}, ...others.map(({port, told}) => button(`Port ${port}: ${told}`, () => again({ports: [port]}))), ...both);
}

// Why a file has no text of a line, and what there is to be chosen.
export function noLineView({fault, lines}, name, again) {
  const several = /^several/.test(fault), words = several ? `${fault}. Which is it?` : lines.length ? `${fault}. There are:` : `${fault}.`;
  const listed = several ? linesView(lines, again) : make('ul', {}, ...lines.map(({told}) => make('li', {}, told)));
  return [make('p', {}, make('b', {}, `${name}: `), words), ...(lines.length ? [listed] : [])];
}

// The words of tools/wire_pcap as those of the page, which has no options.
const onPage = words => words.replace(' (--past-loss goes on)', '').replace('`tap --line`', 'DDCMP alone');

// What is said of the text of a line: from what it was taken, and what else may be; nothing of other files.
export function lineNotes(file, again) {
  if (!file || !file.taken) return [];
  const {said, isWhole, ports = [], goesOn} = file.taken, more = [];
  if (!isWhole && !goesOn) more.push(button('Go on after them', () => again({ports, goesOn: true})));
  if (file.lines && file.lines.length > 1) more.push(linesView(file.lines, again, ports));
  const [first, ...rest] = said.map(onPage);
  return [make('p', {}, make('b', {}, `Taken from ${file.name}: `), first), ...rest.map(words => make('p', {}, words)), ...more];
}
