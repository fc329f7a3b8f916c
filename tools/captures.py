"""Captures of any length, for the scripts that measure the program and its allocations of memory. Each `make(a, b, records)` writes the
captures of side a and of side b, with about that many records each, to two open files. What the users' messages hold is random with
a fixed seed, the same in each run: a body that repeats is read at another speed than real data."""
import random

STRT, STACK, ACK = '0506c00000017595', '0507c00000014855', '050100000001fc55'
NODES = [bytes([1, 4]), bytes([2, 4])]  # 1.1 and 1.2


def startups(a, b, records):
    """Startups of 100 records a side; each side waits for the other in each of them."""
    a.write('ddcap 1 1.1 1.2\n')
    b.write('ddcap 1 1.2 1.1\n')
    sent_a = sent_b = 0
    for _ in range(records // 100):
        a.write('u start\ns %s\nr %d %s\n' % (STRT, sent_b, STACK) + ('s %s\n' % ACK) * 96 + 'u halt\n')
        b.write('u start\nr %d %s\ns %s\n' % (sent_a, STRT, STACK))
        b.write(''.join('r %d %s\n' % (sent_a + 1 + k, ACK) for k in range(96)) + 'u halt\n')
        sent_a += 97
        sent_b += 1


def never_received(a, b, count):
    """So many units of side a that never come."""
    a.write('ddcap 1 1.1 1.2\nu start\n')
    b.write('ddcap 1 1.2 1.1\n')
    for _ in range(count // 1000):
        a.write(('s %s\n' % STRT) * 1000)


# ---- block checks

def shifted(register):
    for _ in range(8):
        register = register >> 1 ^ (0xA001 if register & 1 else 0)
    return register


AFTER_BYTE = [shifted(byte) for byte in range(256)]


def register_over(field, register=0):
    for byte in field:
        register = register >> 8 ^ AFTER_BYTE[(register ^ byte) & 255]
    return register


def word(number):
    return bytes([number & 255, number >> 8])


def with_check(field):
    return field + word(register_over(field))


# ---- units

def ack_of(resp):
    return with_check(bytes([5, 1, 0, resp % 256, 0, 1])).hex()


def nak_of(reason, resp):
    return with_check(bytes([5, 2, reason, resp % 256, 0, 1])).hex()


def changed(text, place):
    """The text of a unit with the lowest bit of one byte turned."""
    unit = bytearray.fromhex(text)
    unit[place] ^= 1
    return unit.hex()


class Packet:
    """A packet: how many bytes it has, and the text of these with their check."""

    def __init__(self, length, text):
        self.length = length
        self.text = text


def packet_of(field):
    return Packet(len(field), with_check(field).hex())


class Bodies:
    """Random bodies of this length. There are more of them than a processor remembers."""

    def __init__(self, length):
        source = random.Random(length)
        bodies = [source.randbytes(length) for _ in range(min(20000, 2000000 // (length + 2)))]
        self.length = length
        self.texts = [body.hex() for body in bodies]
        self.registers = [register_over(body) for body in bodies]
        # what a body that is zero makes of a register, by its low and by its high byte
        self.over_low = [register_over(bytes(length), byte) for byte in range(256)]
        self.over_high = [register_over(bytes(length), byte << 8) for byte in range(256)]

    def text(self, place):
        return self.texts[place % len(self.texts)]

    def behind(self, front, place):
        """The packet of these bytes with a body after them."""
        place %= len(self.texts)
        register = register_over(front)
        check = self.over_low[register & 255] ^ self.over_high[register >> 8] ^ self.registers[place]
        return Packet(len(front) + self.length, front.hex() + self.texts[place] + word(check).hex())


class Session:
    """Two captures that are written record by record. Both stations run; what is sent and kept is counted, for numbers and hints."""

    def __init__(self, a, b):
        a.write('ddcap 1 1.1 1.2\nu start\ns %s\nr 0 %s\ns %s\n' % (STRT, STACK, ACK))
        b.write('ddcap 1 1.2 1.1\nu start\nr 0 %s\ns %s\nr 1 %s\n' % (STRT, STACK, ACK))
        self.sides = [a, b]
        self.sent = [2, 1]
        self.given = [0, 0]
        self.kept = [0, 0]
        self.headers = {}

    def user(self, own, words):
        self.sides[own].write('u %s\n' % words)

    def unit(self, own, packet):
        """The data message with the next number and this packet."""
        self.given[own] += 1
        front = packet.length, self.kept[own] % 256, self.given[own] % 256
        if front not in self.headers:
            self.headers[front] = with_check(bytes([0x81, front[0] & 255, front[0] >> 8, front[1], front[2], 1])).hex()
        return self.headers[front] + packet.text

    def sends(self, own, text):
        """This unit is sent; its hint is answered."""
        self.sides[own].write('s %s\n' % text)
        self.sent[own] += 1
        return self.sent[own] - 1

    def keeps(self, own, hint, text):
        self.sides[own].write('k %d %s\n' % (hint, text))
        self.kept[own] += 1

    def receives(self, own, hint, text):
        self.sides[own].write('r %d %s\n' % (hint, text))

    def carries(self, own, packet):
        """A packet is sent, and kept by the other side."""
        text = self.unit(own, packet)
        self.keeps(1 - own, self.sends(own, text), text)

    def acknowledges(self, own):
        text = ack_of(self.kept[own])
        self.receives(1 - own, self.sends(own, text), text)


class Link:
    """A logical link of a session between two addresses, which side a opens and side b accepts."""

    def __init__(self, session, address_a, address_b):
        self.session = session
        self.addresses = [address_a, address_b]
        self.given = [0, 0]
        self.connect = bytes([1, 2]) + word(512)  # services, information, segment size
        self.calls()
        self.is_accepted()

    def calls(self):
        self.session.user(0, 'open %d' % self.addresses[0])
        self.session.carries(0, packet_of(self.route(0) + bytes([0x18]) + word(0) + word(self.addresses[0]) + self.connect))

    def is_accepted(self):
        self.session.user(1, 'accept %d %d' % tuple(self.addresses))
        self.session.carries(1, packet_of(self.front(1, 0x28) + self.connect))

    def route(self, own):
        return bytes([2]) + NODES[1 - own] + NODES[own] + bytes([0])

    def front(self, own, flag):
        """A message from one side to the other, as far as its addresses."""
        return self.route(own) + bytes([flag]) + word(self.addresses[1 - own]) + word(self.addresses[own])

    def segment(self, own, bodies, place):
        """A message of the user that is one segment: it is handed in."""
        self.session.user(own, 'in %d %s' % (self.addresses[own], bodies.text(place) or '-'))
        self.given[own] += 1
        return bodies.behind(self.front(own, 0x60) + word(self.given[own] % 4096), place)

    def delivers(self, own, bodies, place):
        self.session.user(own, 'up %d %s' % (self.addresses[own], bodies.text(place) or '-'))

    def ack(self, own):
        """All that the other side gave is acknowledged."""
        return packet_of(self.front(own, 0x04) + word(0x8000 | self.given[1 - own] % 4096))

    def closes(self, own):
        self.session.user(own, 'close %d' % self.addresses[own])
        self.ends(own)

    def ends(self, own):
        self.disconnects(own)
        self.session.carries(1 - own, packet_of(self.front(1 - own, 0x48) + word(42)))

    def disconnects(self, own):
        self.session.carries(own, packet_of(self.front(own, 0x38) + word(0)))


class Call(Link):
    """A link that side a opens, and side b has not answered."""

    def is_accepted(self):
        pass

    def is_rejected(self):
        self.session.user(1, 'reject %d %d' % tuple(self.addresses))
        self.ends(1)


# ---- captures with links

def segments(a, b, count, length):
    """So many messages of one segment, over two links, 100 of either side in turn; the segments and the units that they come in are
    acknowledged."""
    session, bodies = Session(a, b), Bodies(length)
    links = [Link(session, 1, 1), Link(session, 2, 2)]
    for turn in range(count // 100):
        own, other = turn % 2, 1 - turn % 2
        for link in links:
            session.carries(own, link.ack(own))
        for place in range(turn * 100, turn * 100 + 100):
            link = links[place % 2]
            session.carries(own, link.segment(own, bodies, place))
            link.delivers(other, bodies, place)
        session.acknowledges(other)


def control_packets(a, b, records):
    """Routing control packets of 1 random byte that side a sends and side b keeps and acknowledges, 200 at a time."""
    session = Session(a, b)
    source = random.Random(1)
    packets = [packet_of(bytes([byte])) for byte in range(1, 128, 2)]
    for _ in range(records // 200):
        for _ in range(200):
            session.carries(0, packets[source.randrange(len(packets))])
        session.acknowledges(1)


def long_segments(a, b, records):
    segments(a, b, records // 2, 512)


def short_segments(a, b, records):
    segments(a, b, records // 2, 1)


def faulty_segments(a, b, records):
    """Either side sends ten messages in turn, two acknowledgements and eight segments of 64 bytes of two links. The third is lost, the sixth
    comes with bad data and the eighth with a bad header; a NAK asks for the third and all after it, they are sent again and kept."""
    session, bodies = Session(a, b), Bodies(64)
    links = [Link(session, 1, 1), Link(session, 2, 2)]
    for turn in range(records // 25):
        own, other = turn % 2, 1 - turn % 2
        places = range(turn * 8, turn * 8 + 8)
        packets = [link.ack(own) for link in links] + [links[place % 2].segment(own, bodies, place) for place in places]
        units = [session.unit(own, packet) for packet in packets]
        hints = [session.sends(own, unit) for unit in units]
        for k in (0, 1):
            session.keeps(other, hints[k], units[k])
        for k in range(3, 10):
            session.receives(other, hints[k], changed(units[k], {5: 20, 7: 4}[k]) if k in (5, 7) else units[k])
        nak = nak_of(2, session.kept[other])
        session.receives(own, session.sends(other, nak), nak)
        for unit, place in zip(units[2:], places):
            session.keeps(other, session.sends(own, unit), unit)
            links[place % 2].delivers(other, bodies, place)
        session.acknowledges(other)


def links_in_turn(a, b, count):
    """So many links one after another, each with a message of one byte each way; addresses are given again."""
    session, bodies = Session(a, b), Bodies(1)
    for number in range(count):
        link = Link(session, number % 60000 + 1, number % 50000 + 1)
        for own in (0, 1):
            session.carries(own, link.segment(own, bodies, number))
            link.delivers(1 - own, bodies, number)
        link.closes(number % 2)


# ---- captures with links that live at the same time

def opened(session, count):
    """So many links that are accepted and stay open; the units that they come in are acknowledged."""
    links = []
    for number in range(1, count + 1):
        links.append(Link(session, number, number))
        if number % 100 == 0:
            for own in (0, 1):
                session.acknowledges(own)
    return links


def calls_left_open(a, b, count):
    opened(Session(a, b), count)


def links_by_turns(a, b, count):
    """So many messages of one segment of one byte, over 1,000 links that stay open, each link in its turn, 100 of either side at once; each
    comes after an acknowledgement."""
    session, bodies = Session(a, b), Bodies(1)
    links = opened(session, 1000)
    for place, link in enumerate(links):
        session.carries(0, link.ack(0))  # now it runs at b as well
        if place % 100 == 99:
            session.acknowledges(1)
    for turn in range(count // 100):
        own, other = turn % 2, 1 - turn % 2
        for place in range(turn * 100, turn * 100 + 100):
            link = links[place % 1000]
            session.carries(own, link.ack(own))
            session.carries(own, link.segment(own, bodies, place))
            link.delivers(other, bodies, place)
        for side in (other, own):
            session.acknowledges(side)


def links_in_all_phases(a, b, count):
    """So many links side by side: called, confirming, running, with a message on its way, disconnecting, ended, and ended with its addresses
    given again."""
    session, bodies = Session(a, b), Bodies(1)
    for number in range(1, count + 1):
        kind = number % 7
        if kind == 0:
            Call(session, number, number)
        elif kind == 1:
            Call(session, number, number).is_rejected()
        else:
            link = Link(session, number, number)
            if kind == 3:
                session.carries(0, link.segment(0, bodies, number))
                link.delivers(1, bodies, number)
            elif kind == 4:
                session.user(1, 'in %d 05' % number)
            elif kind == 5:
                session.user(0, 'close %d' % number)
                link.disconnects(0)
            elif kind == 6:
                link.closes(1)
                Link(session, number, number)
