// What one side of a line sent, put together from the packets that a file has: as tools/packets/ways.py.
import {DATA, addressesIn, hasGoodData, unitsIn} from './units.mjs';

export const SYN = 0x02;
const WRAP = 2 ** 32;  // TCP counts bytes modulo this
const PADS = [0x96, 0xff];  // between units
const NONE = new Uint8Array();

const countOf = (bytes, value) => bytes.reduce((sum, byte) => sum + (byte === value), 0);

// What one side sent over UDP.
export class Way {
  pieces = [];  // {packet, whole} in the order in which they passed
  losses = [];  // {packet, count}: this packet shows that so many bytes are missing
  units = 0;
  bytesInUnits = 0;
  bytesBetween = 0;
  leftOut = 0;  // bytes of units that were cut
  isShort = false;  // the file has only the first bytes of some packet
  named = new Map();  // the first address of each kind, as {address, where, packet}, by whose it is and whether a data packet says it

  // These bytes passed with this packet, and these units are in them.
  write(packet, whole, units) {
    if (whole.length) this.pieces.push({packet, whole});
    this.units += units.length;
    const inside = units.reduce((sum, {length}) => sum + length, 0);
    this.bytesInUnits += inside;
    if (whole.length > inside) this.bytesBetween += Math.max(0, whole.length - inside - PADS.reduce((sum, pad) => sum + countOf(whole, pad), 0));
    for (const unit of units) {
      const {where, own, peer} = addressesIn(unit);
      for (const [whose, address] of [['own', own], ['peer', peer]]) {
        const key = Way.keyOf(whose, where === DATA);
        if (address && !this.named.has(key) && hasGoodData(unit)) this.named.set(key, {address, where, packet});
      }
    }
  }

  static keyOf(whose, isByData) {
    return isByData ? whose + ' by data' : whose;
  }

  take(packet) {
    if (packet.payload.length === packet.length) {
      this.write(packet, packet.payload, unitsIn(packet.payload).units);
      return;
    }
    this.isShort = true;
    this.leftOut += packet.payload.length;
    this.losses.push({packet, count: packet.length - packet.payload.length});
  }

  // All packets were taken.
  end() {}
}

// The same over a TCP connection: bytes that are numbered, and may come again or in another order. A unit is written when it is whole.
export class Stream extends Way {
  #next;  // the number of the next byte
  #later = [];  // packets beyond the next byte as {number, packet}, by the numbers of their first ones and their moments
  #first = 0;  // where in that list the first is that was not taken
  #heard = [];  // packets of the other side that acknowledge more than the file had so far, likewise
  #begun = NONE;

  // The number that these 32 bits of it mean: the one nearest to the next byte.
  #number(wrapped) {
    this.#next ??= wrapped;
    const ahead = ((wrapped - this.#next) % WRAP + WRAP + WRAP / 2) % WRAP - WRAP / 2;
    return this.#next + ahead;
  }

  take(packet) {
    let number = this.#number(packet.sequence);
    if (packet.flags & SYN) {
      number += 1;
      this.#next = Math.max(this.#next, number);
    }
    if (packet.payload.length < packet.length) this.isShort = true;
    if (packet.payload.length) this.#keep(number, packet);
    this.#follow();
  }

  // The other side acknowledges with this packet.
  hear(packet) {
    const number = this.#number(packet.acknowledged);
    if (number > this.#next) this.#heard.push({number, packet});
  }

  #keep(number, packet) {
    let low = this.#first, high = this.#later.length;
    while (low < high) {
      const middle = low + high >> 1, {number: there, packet: {moment}} = this.#later[middle];
      if (there < number || there === number && moment < packet.moment) low = middle + 1;
      else high = middle;
    }
    this.#later.splice(low, 0, {number, packet});
  }

  // Takes what is next, up to a gap: each part where it and those before it have passed.
  #follow() {
    let last;
    for (; this.#first < this.#later.length && this.#later[this.#first].number <= this.#next; this.#first++) {
      const {number, packet} = this.#later[this.#first];
      if (!last || packet.moment > last.moment) last = packet;
      const fresh = packet.payload.subarray(Math.min(this.#next - number, packet.payload.length));
      this.#next += fresh.length;
      const held = joinedBytes(this.#begun, fresh), {units, at} = unitsIn(held);
      this.#begun = held.subarray(at);
      this.write(last, held.subarray(0, at), units);
    }
    if (this.#first < 1000 && this.#first < this.#later.length) return;
    this.#later.splice(0, this.#first);
    this.#first = 0;
  }

  // Notes what is missing; with `goesOn` what passed after it is taken too.
  end(goesOn) {
    for (let shown; (shown = this.#firstAfterGap());) {
      const number = this.#later.length > this.#first ? this.#later[this.#first].number
        : this.#heard.reduce((most, heard) => Math.max(most, heard.number), 0);
      this.losses.push({packet: shown, count: number - this.#next});
      this.#cut();
      if (!goesOn) break;
      this.#next = number;
      this.#follow();
    }
    this.#cut();
  }

  // The packet that shows that bytes are missing, or undefined. One that is acknowledged beyond the last byte is the end of the connection.
  #firstAfterGap() {
    const showing = [...this.#later.slice(this.#first), ...this.#heard.filter(({number}) => number > this.#next + 1)];
    return showing.reduce((first, {packet}) => first && first.moment <= packet.moment ? first : packet, undefined);
  }

  #cut() {
    this.leftOut += this.#begun.length;
    this.#begun = NONE;
  }
}

function joinedBytes(one, other) {
  if (!one.length) return other;
  const both = new Uint8Array(one.length + other.length);
  both.set(one);
  both.set(other, one.length);
  return both;
}
