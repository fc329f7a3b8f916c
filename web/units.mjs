// Units in bytes that passed, and the node addresses that the packets in them name: as tools/packets/units.py.

const SOH = 0x81, ENQ = 0x05, DLE = 0x90;  // the bytes that units begin with: of data, control and maintenance messages
const UNIT_HEADER = 8, UNIT_CHECK = 2;
const PADDED = 0x80, CONTROL = 0x01, SHORT = 0x02, RETURNED = 0x10;  // bits of the first byte of a packet
const INIT = 0x01;
export const DATA = 'a data packet';

const AFTER_BYTE = Uint16Array.from({length: 256}, (_, register) => {
  for (let bit = 0; bit < 8; bit++) register = register >> 1 ^ (register & 1 ? 0xa001 : 0);
  return register;
});

// What the block check (CRC-16, the lowest bit first) makes of the bytes from one place to another: 0 where they end with their check.
function registerOver(bytes, from, to) {
  let register = 0;
  for (let at = from; at < to; at++) register = register >> 8 ^ AFTER_BYTE[(register ^ bytes[at]) & 255];
  return register;
}

// How long the unit is whose header is here: 0 where there is none, undefined where more bytes have to come to say.
function unitLength(held, at) {
  if (at + UNIT_HEADER > held.length) return undefined;
  if (registerOver(held, at, at + UNIT_HEADER)) return 0;
  return held[at] === ENQ ? UNIT_HEADER : UNIT_HEADER + (held[at + 1] | (held[at + 2] & 0x3f) << 8) + UNIT_CHECK;
}

// The whole units in these bytes, and where the beginning of the next one is: at their end, if there is none.
export function unitsIn(held) {
  const units = [];
  for (let at = 0; at < held.length;) {
    if (held[at] !== SOH && held[at] !== ENQ && held[at] !== DLE) {
      at += 1;
      continue;
    }
    const length = unitLength(held, at);
    if (length === undefined || at + length > held.length) return {units, at};
    if (length) units.push(held.subarray(at, at + length));
    at += length || 1;
  }
  return {units, at: held.length};
}

// The address in two bytes of a packet, or undefined where it has no area or no number.
function nodeAt(packet, at) {
  const area = packet[at + 1] >> 2, number = packet[at] | (packet[at + 1] & 3) << 8;
  return area && number ? `${area}.${number}` : undefined;
}

// What the packet in a unit says of addresses: in what, that of the sender, that of the node that it is for. Each may be undefined.
export function addressesIn(unit) {
  let packet = unit.subarray(UNIT_HEADER, -UNIT_CHECK);
  if (unit[0] !== SOH || !packet.length) return {};
  if (packet[0] & PADDED) packet = packet.subarray(packet[0] & 0x7f);
  if (packet[0] & CONTROL && packet.length >= 3) {
    return {where: packet[0] === INIT ? 'an Init message' : 'a routing message', own: nodeAt(packet, 1)};
  }
  if ((packet[0] & 7) === SHORT && !(packet[0] & RETURNED) && packet.length >= 6) {
    return {where: DATA, own: nodeAt(packet, 3), peer: nodeAt(packet, 1)};
  }
  return {};
}

// Whether the block check of its data is right.
export const hasGoodData = unit => registerOver(unit, UNIT_HEADER, unit.length) === 0;
