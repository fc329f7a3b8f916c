// A packet capture as the text of a wire that `tap` reads: as tools/wire_pcap makes it.
import {packetsIn} from './headers.mjs';
import {counted, linesIn} from './lines.mjs';
import {Way} from './ways.mjs';

const MOST_OF_A_PIECE = 65536;
const MOST_LISTED = 20;  // lines that are none of DDCMP

// What is written where no packet names a node; the second where the other node has the first.
const UNKNOWN = {a: ['1.1', '1.2'], b: ['1.2', '1.1']};

// Why there is no text; `lines` are those in the file, of which one may be named by its port.
class NoText extends Error {
  constructor(words, lines = []) {
    super(words);
    this.lines = lines.map(line => ({port: line.portAmong(lines), told: line.told, from: line.hostA, to: line.b.host}));
  }
}

// The one line whose side b has this port.
function partAt(port, lines) {
  let found = lines.filter(({b}) => b.port === port);
  if (!found.length) {
    found = lines.filter(line => line.mayBeCalledAt(port));
    if (found.length === 1) found[0].turn();
  }
  if (!found.length) throw new NoText(`no line is at port ${port}`, lines);
  if (found.length > 1) throw new NoText(`several lines are at port ${port}`, found);
  return found[0];
}

// The line that is meant: its parts, one for each port that was named.
function chosenOf(lines, ports) {
  const found = lines.filter(line => line.isDdcmp || ports.length && line.units);
  if (!lines.length) throw new NoText('no packet of TCP or UDP is in the file');
  if (!found.length) throw new NoText('no line of DDCMP is in the file', lines.slice(0, MOST_LISTED));
  if (!ports.length && found.length > 1) throw new NoText('several lines are in the file', found);
  return ports.length ? [...new Set(ports.map(port => partAt(port, found)))] : found;
}

// The ways of side a and of side b. An end that opened the connections to one port was called on the other.
function sidesOf(parts) {
  const sides = {a: [], b: []};
  for (const [number, {connections}] of parts.entries()) {
    const [opener, called] = number === 0 ? ['a', 'b'] : ['b', 'a'];
    for (const {ways, a, b} of connections) {
      sides[opener].push(ways.get(a));
      sides[called].push(ways.get(b));
    }
  }
  return sides;
}

// The first address that these ways name so, or undefined.
function firstNamed(ways, whose, isByData) {
  return ways.map(({named}) => named.get(Way.keyOf(whose, isByData))).filter(Boolean)
    .reduce((first, each) => first && first.packet.moment <= each.packet.moment ? first : each, undefined);
}

// The addresses of both nodes: what a node says of itself in a routing message, else in a data packet, else what the other one calls it.
function nodesOf(sides, say) {
  const nodes = {};
  for (const [letter, other] of ['ab', 'ba']) {
    const own = sides[letter], found = firstNamed(own, 'own', false) || firstNamed(own, 'own', true) || firstNamed(sides[other], 'peer', true);
    if (!found) continue;
    nodes[letter] = found.address;
    say(`${letter} is node ${found.address}: so says ${found.where} in packet ${found.packet.frame}`);
  }
  for (const [letter, other] of ['ab', 'ba']) {
    if (nodes[letter]) continue;
    const [first, second] = UNKNOWN[letter];
    nodes[letter] = nodes[other] === first ? second : first;
    say(`${letter} is node ${nodes[letter]}: this is a guess, since no packet names it; for \`tap --line\` any will do`);
  }
  return [nodes.a, nodes.b];
}

// Tells which bytes are missing. The packet before which the text ends, or undefined where nothing is missing.
function lossOf(sides, goesOn, say) {
  const losses = Object.entries(sides).flatMap(([letter, ways]) => ways.flatMap(way => way.losses.map(loss => ({...loss, letter, way}))));
  losses.sort((one, other) => one.packet.moment - other.packet.moment);
  for (const {packet, count, letter, way} of goesOn ? losses : losses.slice(0, 1)) {
    const since = way.isShort ? ', since packets were not recorded whole (tcpdump -s 0 does that)' : '';
    say(`${counted(count, 'byte')} of ${letter} are missing in the file, as packet ${packet.frame} shows${since}; `
      + (goesOn ? 'after them correct nodes may be refused' : 'the text ends there (--past-loss goes on)'));
  }
  return losses[0]?.packet;
}

// Tells what the line is taken from.
function tellParts(parts, say) {
  for (const line of parts) {
    say(line.told);
    for (const {tellsSides, twice, b} of line.connections) {
      if (line.kind === 'TCP' && !tellsSides) say(`a connection was open before the file begins: port ${b.port} is taken to be that of b`);
      if (twice) say(`${counted(twice, 'datagram')} that the file has twice are written once`);
    }
  }
}

// What passed, in its order, up to this packet.
function piecesOf(sides, loss) {
  const passed = Object.entries(sides).flatMap(([letter, ways]) =>
    ways.flatMap(({pieces}) => pieces.map(({packet, whole}) => ({packet, whole, letter}))));
  return passed.filter(({packet}) => !loss || packet.moment < loss.moment).sort((one, other) => one.packet.moment - other.packet.moment);
}

// The text, as bytes: a line for each piece, or several where it is too long for one.
function textOf(nodes, pieces) {
  const lines = pieces.flatMap(({letter, whole}) => Array.from({length: Math.ceil(whole.length / MOST_OF_A_PIECE)}, (_, i) =>
    ({letter, part: whole.subarray(i * MOST_OF_A_PIECE, (i + 1) * MOST_OF_A_PIECE)})));
  const head = new TextEncoder().encode(`ddwire 1 ${nodes.join(' ')}\n`);
  const text = new Uint8Array(lines.reduce((sum, {part}) => sum + 2 * part.length + 3, head.length));
  text.set(head);
  const digits = Array.from('0123456789abcdef', digit => digit.charCodeAt(0));
  let at = head.length;
  for (const {letter, part} of lines) {
    text[at++] = letter.charCodeAt(0);
    text[at++] = 32;
    for (const byte of part) {
      text[at++] = digits[byte >> 4];
      text[at++] = digits[byte & 15];
    }
    text[at++] = 10;
  }
  return text;
}

// What passed on the line in a packet capture: {text, said, isWhole}, where `said` are sentences on what it was taken from, and `isWhole` whether no
// byte is missing. Or {fault, lines}: why there is no text, and the lines of the file as {port, told, from, to}, which are the hosts of a and b.
// `ports` name the line where there are several, `goesOn` takes what passed after missing bytes too, and `nodes` are the addresses of a and b, where
// they are not to be read off the packets.
export function wireIn(file, {ports = [], goesOn = false, nodes} = {}, wasRead) {
  const said = [], say = words => said.push(words);
  try {
    const {packets, isCut} = packetsIn(file, wasRead);
    if (isCut) say('the file ends within a packet; what is before it is taken');
    const parts = chosenOf(linesIn(packets, goesOn), ports);
    tellParts(parts, say);
    const sides = sidesOf(parts), named = nodes || nodesOf(sides, say);
    for (const [letter, ways] of Object.entries(sides)) {
      const leftOut = ways.reduce((sum, way) => sum + way.leftOut, 0);
      if (leftOut) say(`${counted(leftOut, 'byte')} of ${letter} are left out: the beginning of units that were cut`);
    }
    const loss = lossOf(sides, goesOn, say);
    return {text: textOf(named, piecesOf(sides, goesOn ? undefined : loss)), said, isWhole: !loss};
  } catch (error) {
    return {fault: error.message, lines: error.lines || [], said};
  }
}
