"""Packet captures in each form that a file may have, for tools/tests/test_pcap: link types, byte orders, times, interfaces, fragments, and files that
are cut or lack packets anywhere."""
import ipaddress
import random
import struct

from tests.made_pcaps import A, A6, ACK, B, B6, PORT, PSH, RAW, UDP, Connection, Packets, connected, over_ip
from tests.relay_peers import session

UNITS = session()
TAG = struct.pack('>HH', 0x8100, 7)
SEEDS = 16


def kind_of(packet):
    """What Ethernet calls a packet of IP."""
    return struct.pack('>H', 0x0800 if packet[0] >> 4 == 4 else 0x86dd)


def family_of(packet):
    return 2 if packet[0] >> 4 == 4 else 30


# By names: a link type, and the frame of a packet.
LINKS = {
    'Ethernet': (1, lambda packet: (bytes(12) + kind_of(packet) + packet).ljust(60, b'\x05')),
    'Ethernet with tags': (1, lambda packet: bytes(12) + TAG + TAG + kind_of(packet) + packet),
    'Linux cooked': (113, lambda packet: struct.pack('>HHH8s', 0, 772, 6, b'') + kind_of(packet) + packet),
    'Linux cooked 2': (276, lambda packet: kind_of(packet) + struct.pack('>HIHBB8s', 0, 1, 772, 0, 6, b'') + packet),
    'loopback': (0, lambda packet: struct.pack('<I', family_of(packet)) + packet),
    'loopback of the other order': (0, lambda packet: struct.pack('>I', family_of(packet)) + packet),
    'loopback of OpenBSD': (108, lambda packet: struct.pack('>I', 2 if packet[0] >> 4 == 4 else 24) + packet),
    'raw': (RAW, lambda packet: packet),
    'raw as BSD has it': (12, lambda packet: packet),
}


def pcap_of(packets, link='raw', order='<', is_fine=False):
    """A pcap of packets as Packets has them, whose times are of nanoseconds where it `is_fine`."""
    number, framed = LINKS[link]
    text = struct.pack(order + 'IHHiIII', 0xa1b23c4d if is_fine else 0xa1b2c3d4, 2, 4, 0, 0, 65535, number)
    for time, packet in packets.packets:
        frame = framed(packet)
        text += struct.pack(order + 'IIII', time // 1000, time % 1000 * (1_000_000 if is_fine else 1000), len(frame), len(frame)) + frame
    return text


def block(order, kind, body):
    body += bytes(-len(body) % 4)
    return struct.pack(order + 'II', kind, len(body) + 12) + body + struct.pack(order + 'I', len(body) + 12)


def section(order, interfaces):
    """The first blocks of a part of a pcapng, and one that says nothing of packets. Interfaces are a link type, an exponent of their times, whether
    that is of 2, and seconds that are added."""
    text = block(order, 0x0a0d0d0a, struct.pack(order + 'IHHq', 0x1a2b3c4d, 1, 0, -1))
    for link, exponent, is_of_two, added in interfaces:
        options = struct.pack(order + 'HHBxxxHH3sxHHqHH', 9, 1, exponent | 0x80 * is_of_two, 2, 3, b'eth', 14, 8, added, 0, 0)
        text += block(order, 1, struct.pack(order + 'HHI', LINKS[link][0], 0, 65535) + options)
    return text + block(order, 5, bytes(16))


def pcapng_of(packets, order='<', interfaces=(('raw', 6, False, 0),), is_old=False):
    """A pcapng of two sections, whose packets are of one interface after the other."""
    parts, half = [], (len(packets.packets) + 1) // 2
    for number, (time, packet) in enumerate(packets.packets):
        if number % half == 0:
            parts.append(section(order, interfaces))
        link, exponent, is_of_two, added = interfaces[number % len(interfaces)]
        units = (time - added * 1000) * (2 if is_of_two else 10) ** exponent // 1000
        frame = LINKS[link][1](packet)
        head = struct.pack(order + 'HH', number % len(interfaces), 0) if is_old else struct.pack(order + 'I', number % len(interfaces))
        head += struct.pack(order + 'IIII', units >> 32, units & 0xffffffff, len(frame), len(frame))
        parts.append(block(order, 2 if is_old else 6, head + frame))
    return b''.join(parts)


def fragments(packet, size):
    """A packet of UDP over IP in fragments whose payloads have this size, a multiple of 8."""
    if packet[0] >> 4 == 4:
        head, payload = packet[:20], packet[20:]
        for at in range(0, len(payload), size):
            part = payload[at:at + size]
            yield head[:2] + struct.pack('>HHH', 20 + len(part), 77, at // 8 | 0x2000 * (at + size < len(payload))) + head[8:] + part
        return
    head, payload = packet[:40], packet[40:]
    for at in range(0, len(payload), size):
        part = payload[at:at + size]
        yield (head[:4] + struct.pack('>HBB', 8 + len(part), 44, 64) + head[8:]
               + struct.pack('>BBHI', UDP, 0, at | (at + size < len(payload)), 77) + part)


def with_headers(packet):
    """A packet of IPv6 with two headers more, which say nothing."""
    more = struct.pack('>BB6x', 60, 0) + struct.pack('>BB14x', packet[6], 1)
    return packet[:4] + struct.pack('>HB', len(packet) - 40 + len(more), 0) + packet[7:40] + more + packet[40:]


def with_times(packet):
    """A TCP segment over IPv4 with an option that has times."""
    segment = packet[20:]
    option = struct.pack('>BBBBII', 1, 1, 8, 10, 1, 2)
    return over_ip(6, str(ipaddress.ip_address(packet[12:16])), str(ipaddress.ip_address(packet[16:20])),
                   segment[:12] + b'\x80' + segment[13:20] + option + segment[20:])


def changed(packets, change):
    """The packets, each of them changed to one or several, in a list."""
    made = Packets()
    for _, packet in packets.packets:
        for each in change(packet):
            made.put(each)
    return made


def datagrams(a, b):
    packets = Packets()
    packets.exchange(UNITS, a, b)
    return packets


def damaged(chance):
    """Connections of which packets were lost, were sent again, came in another order, or are of other units."""
    packets = Packets()
    for number in range(chance.randrange(1, 4)):
        line = Connection(packets, (A, 40001 + number), first=(chance.randrange(2 ** 32), chance.randrange(2 ** 32)))
        if chance.random() < 0.3:
            line.refused()
            continue
        if chance.random() < 0.8:
            line.open()
        for side, unit in UNITS[:chance.randrange(len(UNITS))]:
            while unit:
                size = chance.randrange(1, 60)
                line.segment(side, PSH | ACK, unit[:size])
                line.next[side] += len(unit[:size])
                if chance.random() < 0.2:
                    line.again(side, unit[:size])
                if chance.random() < 0.5:
                    line.segment('b' if side == 'a' else 'a', ACK)
                unit = unit[size:]
        if chance.random() < 0.7:
            line.close()
    for _ in range(chance.randrange(4)):
        packets.drop(chance.randrange(len(packets.packets)))
        packets.move(chance.randrange(len(packets.packets)), chance.randrange(len(packets.packets)))
    return packets


def forms(expect_units, ran):
    """The tests. `ran` compares the tool with the page too."""
    def takes_link_types():
        for name in LINKS:
            for host_a, host_b in ((A, B), (A6, B6)):
                expect_units(pcap_of(connected(UNITS, a=(host_a, 40001), b=(host_b, PORT)), name), UNITS)
        expect_units(pcap_of(changed(connected(UNITS), lambda packet: [with_times(packet)]), 'Ethernet'), UNITS)
        expect_units(pcap_of(changed(connected(UNITS, a=(A6, 40001), b=(B6, PORT)), lambda packet: [with_headers(packet)])), UNITS)

    def takes_orders_and_times():
        for order in '<>':
            for is_fine in (False, True):
                expect_units(pcap_of(connected(UNITS), 'Ethernet', order, is_fine), UNITS)
            expect_units(pcapng_of(connected(UNITS), order), UNITS)
            expect_units(pcapng_of(connected(UNITS), order, is_old=True), UNITS)

    def takes_several_interfaces():
        several = ('Ethernet', 9, False, 0), ('Linux cooked', 3, False, 1000), ('loopback', 20, True, -5), ('raw', 6, False, 0)
        for order in '<>':
            expect_units(pcapng_of(connected(UNITS), order, several), UNITS)
        packets = datagrams((A6, 4001), (B6, PORT))
        random.Random(2).shuffle(packets.packets)
        expect_units(pcapng_of(packets, '<', several), UNITS)

    def joins_fragments():
        for host_a, host_b in ((A, B), (A6, B6)):
            packets = datagrams((host_a, 4001), (host_b, PORT))
            expect_units(changed(packets, lambda packet: fragments(packet, 16)), UNITS)
            expect_units(changed(packets, lambda packet: reversed(list(fragments(packet, 8)))), UNITS)

    def writes_hosts():
        for host in ('::1', 'fe80::1:0:0:1', '1:0:2:3:4:5:6:7', '1:0:0:2:3:0:0:4', '::ffff:1.2.3.4', '::1.2.3.4', '1::', '2001:db8::1:0:0:9'):
            expect_units(connected(UNITS, a=(host, 40001), b=(B6, PORT)), UNITS)

    def takes_what_packets_have():
        for most in (*range(20, 60, 4), *range(60, 140, 16)):
            ran(connected(UNITS).pcap(most))
            ran(datagrams((A, 4001), (B, PORT)).pcap(most), '--past-loss')

    def takes_what_a_file_has():
        chance = random.Random(3)
        for file in (connected(UNITS).pcap(), connected(UNITS).pcapng()):
            for _ in range(8):
                ran(file[:chance.randrange(24, len(file))])

    def agrees_where_packets_are_lost():
        for seed in range(SEEDS):
            file = damaged(random.Random(seed)).pcap()
            ran(file)
            ran(file, '--past-loss')

    return (takes_link_types, takes_orders_and_times, takes_several_interfaces, joins_fragments, writes_hosts, takes_what_packets_have,
            takes_what_a_file_has, agrees_where_packets_are_lost)
