// What a frame of a packet capture has of IP: by its link type, and the fragments of a packet joined.

const ETHERNET = 1, LOOPBACKS = [0, 108], RAW = [12, 14, 101, 228, 229], COOKED = 113, COOKED_2 = 276;  // link types
const IP_4 = 0x0800, IP_6 = 0x86dd, TAGS = [0x8100, 0x88a8, 0x9100];  // what follows in Ethernet
const EXTENSIONS = [0, 43, 60], FRAGMENT = 44, AUTHENTICATION = 51;  // headers of IPv6 between its own and that of TCP or UDP

const u16 = (bytes, at) => bytes[at] << 8 | bytes[at + 1];

// Where the IP header begins in a frame of this link type, or undefined where there is none.
function beginOfIp(link, bytes) {
  if (RAW.includes(link)) return 0;
  if (LOOPBACKS.includes(link)) return 4;
  let kind, at;
  if (link === ETHERNET) kind = 12, at = 14;
  else if (link === COOKED) kind = 14, at = 16;
  else if (link === COOKED_2) kind = 0, at = 20;
  else return undefined;
  let what = u16(bytes, kind);
  for (; TAGS.includes(what) && at + 4 <= bytes.length; at += 4) what = u16(bytes, at + 2);
  return what === IP_4 || what === IP_6 ? at : undefined;
}

// The packets of IP in the frames of a file, in their order. Fragments are one packet, in the frame that has the last of them.
export class IpPackets {
  #parts = new Map();

  // What a frame carries over IP: {protocol, source, target, identity, bytes, length}, whose addresses are bytes, or undefined. `length` is how long
  // that was, of which the file has `bytes`.
  in({link, bytes, length}) {
    const at = beginOfIp(link, bytes);
    if (at === undefined || at >= bytes.length) return undefined;
    const [packet, reported] = [bytes.subarray(at), length - at], version = packet[0] >> 4;
    return version === 4 ? this.#version4(packet, reported) : version === 6 ? this.#version6(packet, reported) : undefined;
  }

  #version4(packet, reported) {
    const header = (packet[0] & 15) * 4;
    if (header < 20 || packet.length < header) return undefined;
    const length = Math.min(u16(packet, 2) || reported, reported), flags = u16(packet, 6);
    if (length < header) return undefined;
    const it = {protocol: packet[9], source: packet.subarray(12, 16), target: packet.subarray(16, 20), identity: u16(packet, 4),
      bytes: packet.subarray(header, length), length: length - header};
    return this.#joined(it, it.identity, (flags & 0x1fff) * 8, (flags & 0x2000) !== 0);
  }

  #version6(packet, reported) {
    if (packet.length < 40) return undefined;
    const length = Math.min(u16(packet, 4) ? 40 + u16(packet, 4) : reported, reported), held = packet.subarray(0, length);
    const it = {protocol: packet[6], source: packet.subarray(8, 24), target: packet.subarray(24, 40), identity: 0};
    let at = 40, fragment = 0;
    for (; at + 8 <= held.length; at += it.size) {
      if (EXTENSIONS.includes(it.protocol)) it.size = 8 + held[at + 1] * 8;
      else if (it.protocol === AUTHENTICATION) it.size = 8 + held[at + 1] * 4;
      else if (it.protocol === FRAGMENT) it.size = 8, fragment = at;
      else break;
      it.protocol = held[at];
    }
    Object.assign(it, {bytes: held.subarray(at), length: length - at});
    if (!fragment) return it;
    const place = u16(held, fragment + 2), number = u16(held, fragment + 4) * 65536 + u16(held, fragment + 6);
    return this.#joined(it, number, place & ~7, (place & 1) !== 0);
  }

  // The packet of which this is a part, from this byte on, once the last of its parts has come; the part, where it is the whole.
  #joined(it, identity, from, isMore) {
    if (!from && !isMore) return it;
    if (it.bytes.length < it.length) return from ? undefined : it;
    const key = [...it.source, ...it.target, it.protocol, identity].join(), parts = this.#parts.get(key) || [];
    this.#parts.set(key, parts);
    parts.push({from, bytes: it.bytes, isLast: !isMore});
    parts.sort((one, other) => one.from - other.from);
    let end = 0;
    for (const part of parts) if (part.from <= end) end = Math.max(end, part.from + part.bytes.length);
    const last = parts.find(({isLast}) => isLast);
    if (!last || end < last.from + last.bytes.length) return undefined;
    this.#parts.delete(key);
    const bytes = new Uint8Array(end);
    for (const part of parts) bytes.set(part.bytes, part.from);
    return {...it, bytes, length: end};
  }
}
