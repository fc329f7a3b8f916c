"""Packet captures for tools/tests/test_pcap, packet by packet: connections over TCP between two ends, with what may become of their segments, and
datagrams over UDP; as a file of either format. Each packet comes a millisecond after the one before it."""
import ipaddress
import struct

A, B = '10.0.0.1', '10.0.0.2'
A6, B6 = 'fd00::1', 'fd00::2'
PORT = 4000
FIN, SYN, RST, PSH, ACK = 1, 2, 4, 8, 16
TCP, UDP, ICMP = 6, 17, 1
RAW = 101  # the link type of packets that begin with their IP header


def over_ip(protocol, source, target, payload, identity=0):
    source, target = ipaddress.ip_address(source), ipaddress.ip_address(target)
    if source.version == 6:
        return struct.pack('>IHBB', 6 << 28, len(payload), protocol, 64) + source.packed + target.packed + payload
    return struct.pack('>BBHHHBBH', 0x45, 0, 20 + len(payload), identity, 0x4000, 64, protocol, 0) + source.packed + target.packed + payload


class Packets:
    """The packets of a file, as (time in milliseconds, bytes)."""

    def __init__(self):
        self.packets, self.now = [], 1_700_000_000_000

    def put(self, packet):
        self.now += 1
        self.packets.append((self.now, packet))

    def move(self, number, to):
        """A packet comes in another place, at the time of that place."""
        times, packets = [time for time, _ in self.packets], [packet for _, packet in self.packets]
        packets.insert(to, packets.pop(number))
        self.packets = list(zip(times, packets))

    def drop(self, number=-1):
        return self.packets.pop(number)

    def pcap(self, most=65535):
        """The file, which has at most so many bytes of a packet."""
        return struct.pack('<IHHiIII', 0xa1b2c3d4, 2, 4, 0, 0, most, RAW) + b''.join(
            struct.pack('<IIII', time // 1000, time % 1000 * 1000, min(most, len(packet)), len(packet)) + packet[:most]
            for time, packet in self.packets)

    def pcapng(self):
        def block(kind, body):
            body += bytes(-len(body) % 4)
            return struct.pack('<II', kind, len(body) + 12) + body + struct.pack('<I', len(body) + 12)
        return block(0x0a0d0d0a, struct.pack('<IHHq', 0x1a2b3c4d, 1, 0, -1)) + block(1, struct.pack('<HHI', RAW, 0, 65535)) + b''.join(
            block(6, struct.pack('<IIIII', 0, time * 1000 >> 32, time * 1000 & 0xffffffff, len(packet), len(packet)) + packet)
            for time, packet in self.packets)

    # -- UDP

    def datagram(self, source, target, payload, identity=0):
        """`source` and `target` are a host and a port."""
        header = struct.pack('>HHHH', source[1], target[1], 8 + len(payload), 0)
        self.put(over_ip(UDP, source[0], target[0], header + payload, identity))

    def quoted(self, source, target, payload):
        """An ICMP message that a datagram from `target` to `source` found no port, and quotes it."""
        there = over_ip(UDP, target[0], source[0], struct.pack('>HHHH', target[1], source[1], 8 + len(payload), 0) + payload)
        self.put(over_ip(ICMP, source[0], target[0], struct.pack('>BBHI', 3, 3, 0, 0) + there))

    def exchange(self, units, a=(A, 4001), b=(B, PORT)):
        for side, unit in units:
            self.datagram(*((a, b) if side == 'a' else (b, a)), unit)


class Connection:
    """A TCP connection that a opens. `first` are the numbers of the first bytes."""

    def __init__(self, packets, a=(A, 40001), b=(B, PORT), first=(1000, 2000)):
        self.packets, self.ends, self.next = packets, {'a': a, 'b': b}, dict(zip('ab', first))

    def segment(self, side, flags, payload=b'', number=None):
        """One that leaves the numbers as they are."""
        far = 'b' if side == 'a' else 'a'
        (host, port), (far_host, far_port) = self.ends[side], self.ends[far]
        number = self.next[side] if number is None else number
        acknowledged = self.next[far] if flags & ACK else 0
        words = struct.pack('>HHIIBBHHH', port, far_port, number % 2 ** 32, acknowledged % 2 ** 32, 0x50, flags, 64240, 0, 0)
        self.packets.put(over_ip(TCP, host, far_host, words + payload))

    def open(self):
        self.segment('a', SYN)
        self.next['a'] += 1
        self.segment('b', SYN | ACK)
        self.next['b'] += 1
        self.segment('a', ACK)
        return self

    def refused(self):
        self.segment('a', SYN)
        self.next['a'] += 1
        self.segment('b', RST | ACK, number=0)

    def send(self, side, payload):
        """A segment, and its acknowledgement by the other side."""
        self.segment(side, PSH | ACK, payload)
        self.next[side] += len(payload)
        self.segment('b' if side == 'a' else 'a', ACK)

    def send_all(self, units):
        for side, unit in units:
            self.send(side, unit)
        return self

    def again(self, side, payload):
        """The last bytes of a side come once more."""
        self.segment(side, PSH | ACK, payload, self.next[side] - len(payload))

    def close(self):
        for side in 'ab':
            self.segment(side, FIN | ACK)
            self.next[side] += 1
        self.segment('a', ACK)


def connected(units, **given):
    """The packets of a connection with these units."""
    packets = Packets()
    Connection(packets, **given).open().send_all(units).close()
    return packets
