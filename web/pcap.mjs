// The frames in a packet capture, of either format: pcap and pcapng, of either byte order.

const MOST = 262_144;  // bytes of a frame; what says more is no packet capture
const SECTION = 0x0a0d0d0a, INTERFACE = 1, OLD_PACKET = 2, SIMPLE_PACKET = 3, PACKET = 6;  // kinds of blocks of a pcapng
const RESOLUTION = 9, OFFSET = 14;  // options of an interface
const MAGIC = {0xa1b2c3d4: 1000, 0xa1b23c4d: 1};  // of a pcap: nanoseconds of the unit of its times
const ORDER = 0x1a2b3c4d;
const BILLION = 1_000_000_000n;

const DAMAGED = 'it is damaged, or no packet capture';

const viewOf = bytes => new DataView(bytes.buffer, bytes.byteOffset, bytes.length);

// Gives the frames of a file one by one: {link, seconds, nanoseconds, bytes, length, ends}, where `bytes` are what the file has of its `length`, and
// `ends` is how much of the file was read then. Returns whether the file ends within a frame. An Error where it is damaged.
export function* framesIn(bytes) {
  const view = viewOf(bytes);
  return yield* bytes.length >= 4 && view.getUint32(0) === SECTION ? framesOfPcapng(bytes, view) : framesOfPcap(bytes, view);
}

function* framesOfPcap(bytes, view) {
  if (bytes.length < 24) return true;
  const isLittle = view.getUint32(0) in MAGIC === false, unit = MAGIC[view.getUint32(0, isLittle)];
  if (!unit) throw new Error(DAMAGED);
  const word = at => view.getUint32(at, isLittle), link = word(20) & 0xffff;
  let at = 24;
  for (; at + 16 <= bytes.length; at += 16 + word(at + 8)) {
    const held = word(at + 8), ends = at + 16 + held;
    if (held > MOST) throw new Error(DAMAGED);
    if (ends > bytes.length) return true;
    const seconds = view.getInt32(at, isLittle), nanoseconds = word(at + 4) * unit;
    yield {link, seconds, nanoseconds, bytes: bytes.subarray(at + 16, ends), length: word(at + 12), ends};
  }
  return at < bytes.length;
}

// A frame of a pcapng, whose time is a number of units since 1970.
function frameAt(bytes, from, held, length, {link, units, offset}, time) {
  if (held > MOST) throw new Error(DAMAGED);
  const seconds = time / units, nanoseconds = (time % units) * BILLION / units;
  return {link, seconds: Number(seconds + offset), nanoseconds: Number(nanoseconds), bytes: bytes.subarray(from, from + held), length};
}

// What the block of an interface says: its link type, the units of its times in a second, and what is added to its seconds.
function interfaceOf(view, at, ends, isLittle) {
  const found = {link: view.getUint16(at + 8, isLittle), most: view.getUint32(at + 12, isLittle), units: 1_000_000n, offset: 0n};
  for (let option = at + 16; option + 4 <= ends - 4;) {
    const code = view.getUint16(option, isLittle), length = view.getUint16(option + 2, isLittle);
    if (code === 0 || option + 4 + length > ends - 4) break;
    const byte = length && view.getUint8(option + 4);
    if (code === RESOLUTION && length === 1) found.units = byte & 0x80 ? 2n ** BigInt(byte & 0x7f) : 10n ** BigInt(byte);
    if (code === OFFSET && length === 8) found.offset = view.getBigInt64(option + 4, isLittle);
    option += 4 + (length + 3 & ~3);
  }
  return found;
}

// The frame in a block of this kind, or undefined where it has none.
function frameIn(bytes, view, {kind, at, isLittle}, interfaces) {
  const word = from => view.getUint32(from, isLittle);
  if (kind === SIMPLE_PACKET) {
    const it = interfaces[0], held = it && Math.min(word(at + 8), it.most || MOST);
    return it && frameAt(bytes, at + 12, held, word(at + 8), it, 0n);
  }
  if (kind !== PACKET && kind !== OLD_PACKET) return undefined;
  const it = interfaces[kind === PACKET ? word(at + 8) : view.getUint16(at + 8, isLittle)];
  if (!it) throw new Error(DAMAGED);
  return frameAt(bytes, at + 28, word(at + 20), word(at + 24), it, BigInt(word(at + 12)) << 32n | BigInt(word(at + 16)));
}

function* framesOfPcapng(bytes, view) {
  let isLittle = true, interfaces = [], at = 0;
  while (at + 12 <= bytes.length) {
    let kind = view.getUint32(at, isLittle);
    if (kind === SECTION) {
      isLittle = view.getUint32(at + 8, true) === ORDER;
      if (!isLittle && view.getUint32(at + 8) !== ORDER) throw new Error(DAMAGED);
      interfaces = [];
    }
    const length = view.getUint32(at + 4, isLittle), ends = at + length;
    if (length < 12 || length % 4) throw new Error(DAMAGED);
    if (ends > bytes.length) return true;
    if (kind === INTERFACE) interfaces.push(interfaceOf(view, at, ends, isLittle));
    const frame = frameIn(bytes, view, {kind, at, isLittle}, interfaces);
    if (frame) yield {...frame, ends};
    at = ends;
  }
  return at < bytes.length;
}
