// The connections in a packet capture, and which of them are one line: as tools/packets/lines.py. An end of one is a {host, port, name, number}, and there
// is one object for each.
import {SYN, Stream, Way} from './ways.mjs';

const RST = 0x04, ACK = 0x10;
const MOST_ENDS = 2 ** 25;
const SOON = 1e9;  // nanoseconds in which a datagram with the same identification and bytes is the same one, that the file has twice

export const counted = (number, noun) => `${number} ${noun}${number === 1 ? '' : 's'}`;

// Whether an end comes before another: by their ports, then by their hosts.
const isBefore = (one, other) => one.port !== other.port ? one.port < other.port : one.host < other.host;

// Nanoseconds from one packet to a later one.
const between = (before, after) => (after.seconds - before.seconds) * 1e9 + after.nanoseconds - before.nanoseconds;

// Two ends between which packets went, a and b. `tellsSides` says whether which is which is certain.
class Ends {
  kind = 'UDP';
  twice = 0;
  tellsSides = false;

  constructor(a, b) {
    this.a = a;
    this.b = b;
  }

  turn() {
    [this.a, this.b] = [this.b, this.a];
  }

  has() {
    return true;
  }
}

// A TCP connection. Where the file lacks its beginning, the end with the higher port is taken to have opened it.
class Connection extends Ends {
  kind = 'TCP';

  constructor({source, target, flags, sequence}) {
    const tellsSides = (flags & SYN) !== 0, isTurned = tellsSides ? flags & ACK : isBefore(source, target);
    super(isTurned ? target : source, isTurned ? source : target);
    this.tellsSides = tellsSides;
    this.start = (flags & (SYN | ACK)) === SYN ? sequence : undefined;
    this.ways = new Map([[this.a, new Stream()], [this.b, new Stream()]]);
  }

  // Whether a packet between its ends belongs to it, not to the next one.
  has({flags, sequence}) {
    return (flags & (SYN | ACK)) !== SYN || sequence === this.start;
  }

  take(packet) {
    this.ways.get(packet.source).take(packet);
    if ((packet.flags & (ACK | RST)) === ACK) this.ways.get(packet.target).hear(packet);
  }
}

// The datagrams between two ends. The one that sent first is taken to be a.
class Exchange extends Ends {
  #came = new Map();

  constructor({source, target, moment}) {
    super(source, target);
    this.ways = new Map([[source, new Way()], [target, new Way()]]);
    this.begins = this.ends = moment;
  }

  take(packet) {
    this.ends = packet.moment;
    if (packet.identity && this.#cameJustNow(packet)) this.twice += 1;
    else this.ways.get(packet.source).take(packet);
  }

  // Whether the same datagram came before, within a second.
  #cameJustNow(packet) {
    const key = `${packet.source.name} ${packet.identity}`, alike = this.#came.get(key) || [];
    const at = alike.findIndex(({payload}) => payload.length === packet.payload.length && payload.every((byte, i) => byte === packet.payload[i]));
    const before = alike[at];
    if (at < 0) this.#came.set(key, [...alike, packet]);
    else alike[at] = packet;
    return before !== undefined && between(before, packet) < SOON;
  }
}

// All connections of two ends: `hostA` opened them, and `b` was called.
class Line {
  constructor(first) {
    this.connections = [first];
    this.kind = first.kind;
    this.hostA = first.a.host;
    this.b = first.b;
  }

  // Whether a later connection is of it. Over UDP a may go on from another port, but not while the old one is used.
  goesOnWith({kind, a, b, begins}) {
    return kind === this.kind && a.host === this.hostA && b === this.b && (kind === 'TCP' || this.connections.at(-1).ends < begins);
  }

  get ways() {
    return this.connections.flatMap(({ways}) => [...ways.values()]);
  }

  get units() {
    return this.ways.reduce((sum, {units}) => sum + units, 0);
  }

  // Whether most of its bytes are units.
  get isDdcmp() {
    return this.units > 0 && this.ways.reduce((sum, way) => sum + way.bytesInUnits - way.bytesBetween, 0) >= 0;
  }

  // Whether side a may as well be b: no connection tells which end was called.
  get mayTurn() {
    return !this.connections.some(({tellsSides}) => tellsSides);
  }

  // Whether what is side a now has this port and may be b.
  mayBeCalledAt(port) {
    return this.mayTurn && this.connections.some(({a}) => a.port === port);
  }

  // A port that names this line, if possible alone among these.
  portAmong(lines) {
    const isAlone = lines.filter(({b}) => b.port === this.b.port).length === 1;
    return isAlone || !this.mayTurn ? this.b.port : this.connections.at(-1).a.port;
  }

  // What was side a is b.
  turn() {
    for (const each of this.connections) each.turn();
    const {a, b} = this.connections.at(-1);
    this.hostA = a.host;
    this.b = b;
  }

  get told() {
    const units = counted(this.units, 'unit');
    if (this.kind === 'UDP') return `UDP, a ${this.connections.at(-1).a.name}, b ${this.b.name}: ${units}`;
    const empty = this.connections.filter(({ways}) => ![...ways.values()].some(({pieces}) => pieces.length)).length;
    const words = `TCP, a ${this.hostA}, b ${this.b.name}: ${units} on ${counted(this.connections.length - empty, 'connection')}`;
    return empty ? `${words}, and ${counted(empty, 'attempt')} that carried nothing` : words;
  }
}

// All connections, in the order in which they begin.
function connectionsOf(packets) {
  const found = [], last = new Map();
  for (const packet of packets) {
    const {source: {number: source}, target: {number: target}} = packet;
    const ends = (Math.min(source, target) * MOST_ENDS + Math.max(source, target)) * 2 + (packet.kind === 'tcp' ? 1 : 0);
    let one = last.get(ends);
    if (!one || !one.has(packet)) {
      one = packet.kind === 'tcp' ? new Connection(packet) : new Exchange(packet);
      last.set(ends, one);
      found.push(one);
    }
    one.take(packet);
  }
  return found;
}

// All lines in these packets, those that are none of DDCMP among them; with `goesOn` also what passed after bytes that are missing.
export function linesIn(packets, goesOn) {
  const connections = connectionsOf(packets), lines = new Map();
  const called = new Set(connections.filter(({tellsSides}) => tellsSides).map(({b}) => b));
  for (const connection of connections) {
    if (!connection.tellsSides && connection.kind === 'TCP' && called.has(connection.a) && !called.has(connection.b)) connection.turn();
    for (const way of connection.ways.values()) way.end(goesOn);
    const key = `${connection.kind} ${connection.a.host} ${connection.b.name}`, same = lines.get(key) || [];
    lines.set(key, same);
    if (same.length && same.at(-1).goesOnWith(connection)) same.at(-1).connections.push(connection);
    else same.push(new Line(connection));
  }
  return [...lines.values()].flat();
}
