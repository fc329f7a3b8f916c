// The TCP segments and UDP datagrams in the frames of a packet capture: as tshark tells them to tools/packets/tshark.py.
import {IpPackets} from './frames.mjs';
import {framesIn} from './pcap.mjs';

const TCP = 6, UDP = 17, RESET = 0x04;
const TCP_HEADER = 20, TCP_ENOUGH = 16, UDP_HEADER = 8;  // what a file has to have of a header of TCP, so that its length is known

// An address of IPv6 as text, with its longest run of zeros left out, as inet_ntop writes it.
function textOfVersion6(bytes) {
  const words = Array.from({length: 8}, (_, i) => bytes[2 * i] << 8 | bytes[2 * i + 1]);
  let best = {from: 8, length: 1};
  for (let from = 0; from < 8; from++) {
    const end = words.findIndex((word, i) => i >= from && word !== 0), length = (end < 0 ? 8 : end) - from;
    if (length > best.length) best = {from, length};
  }
  const isOfVersion4 = best.from === 0 && (best.length === 6 || best.length === 5 && words[5] === 0xffff);
  const tail = isOfVersion4 ? [...bytes.subarray(12)].join('.') : words.slice(best.from + best.length).map(word => word.toString(16)).join(':');
  if (isOfVersion4) return best.length === 6 ? '::' + tail : '::ffff:' + tail;
  return best.length < 2 ? words.map(word => word.toString(16)).join(':')
    : `${words.slice(0, best.from).map(word => word.toString(16)).join(':')}::${tail}`;
}

// Makes one object of each end: {host, port, name, number}, where ends are numbered from 0.
class EndsByName {
  #ends = new Map();

  of(address, port) {
    const key = address.length === 4 ? address.reduce((sum, byte) => sum * 256 + byte, 0) * 65536 + port : `${address.join()} ${port}`;
    let end = this.#ends.get(key);
    if (!end) {
      const host = address.length === 4 ? address.join('.') : textOfVersion6(address);
      end = {host, port, name: host.includes(':') ? `[${host}]:${port}` : `${host}:${port}`, number: this.#ends.size};
      this.#ends.set(key, end);
    }
    return end;
  }
}

// What a TCP segment is, or undefined where the file has too little of its header.
function segmentIn({bytes, length}, view) {
  const header = bytes.length > 12 ? (bytes[12] >> 4) * 4 : 0;
  if (bytes.length < TCP_ENOUGH || header < TCP_HEADER || header > length) return undefined;
  const flags = view.getUint16(12) & 0x0fff;
  return {kind: 'tcp', flags, sequence: view.getUint32(4), acknowledged: view.getUint32(8), length: length - header,
    payload: flags & RESET ? bytes.subarray(0, 0) : bytes.subarray(header)};
}

// The same of a UDP datagram.
function datagramIn({bytes, identity}, view) {
  const length = bytes.length < UDP_HEADER - 2 ? 0 : view.getUint16(4);
  if (length < UDP_HEADER) return undefined;
  return {kind: 'udp', length: length - UDP_HEADER, payload: bytes.subarray(UDP_HEADER, length), identity};
}

// The packets of a file by their times, and whether the file ends within one. Each has the number of its frame, its time, its ends (`source` and
// `target`), and a `moment`, which counts the packets by their times; `length` is that of its payload as it was sent. `wasRead` is called with how
// many bytes of the file were read by then.
export function packetsIn(file, wasRead = () => {}) {
  const packets = [], ips = new IpPackets(), ends = new EndsByName(), frames = framesIn(file);
  let number = 0, next = frames.next();
  for (; !next.done; next = frames.next()) {
    const {seconds, nanoseconds} = next.value, ip = ips.in(next.value);
    number += 1;
    wasRead(next.value.ends);
    if (!ip || ip.protocol !== TCP && ip.protocol !== UDP || ip.bytes.length < 4) continue;
    const view = new DataView(ip.bytes.buffer, ip.bytes.byteOffset, ip.bytes.length);
    const found = ip.protocol === TCP ? segmentIn(ip, view) : datagramIn(ip, view);
    if (!found) continue;
    const source = ends.of(ip.source, view.getUint16(0)), target = ends.of(ip.target, view.getUint16(2));
    packets.push({...found, frame: number, seconds, nanoseconds, source, target, moment: 0});
  }
  packets.sort((one, other) => one.seconds - other.seconds || one.nanoseconds - other.nanoseconds);
  packets.forEach((packet, moment) => { packet.moment = moment; });
  return {packets, isCut: next.value};
}
