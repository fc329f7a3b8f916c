"""A small node for tools/tests/test_bugs: a station (tools/tests/nodes/small_station.py) with the links of NSP on top. It composes a message when the
station can send it, so nothing waits between the two."""
import struct

from tests.nodes.small_station import Station

BEGINS, ENDS = 0x20, 0x40
DATA_ACK, CONNECT_ACK, CI, CC, DI, DC = 0x04, 0x24, 0x18, 0x28, 0x38, 0x48
NODES = {'a': (1 << 10 | 1, 1 << 10 | 2), 'b': (1 << 10 | 2, 1 << 10 | 1)}  # own and peer


def word(number):
    return struct.pack('<H', number)


class Link:
    def __init__(self, own, far, phase, is_opened, size=0):
        self.own, self.far, self.phase, self.is_opened, self.size = own, far, phase, is_opened, size
        self.is_owed = True  # the CI, connect acknowledgement, CC or DI of this phase
        self.messages, self.offset = [], 0  # handed in, and how far the first is given
        self.given = self.acknowledged = 0
        self.segments, self.again = {}, []  # those unacknowledged, and those to be sent again
        self.received, self.held = 0, {}
        self.message = b''  # as far as it came
        self.is_ack_owed = False

    def goes_to(self, phase):
        self.phase = phase
        self.is_owed = phase != 'Ended'

    def is_done(self):
        return self.phase == 'Ended' or self.phase == 'RUN' and not (self.messages or self.segments or self.is_ack_owed)


class Node(Station):
    SIZE = 20  # the SEGSIZE that it gives

    def __init__(self, side, chance):
        super().__init__(side, chance)
        self.address, self.peer = NODES[side]
        self.links, self.gone, self.hellos = [], [], 0  # `gone`: the addresses of DCs that are owed
        self.rejects = self.is_silent = False  # silent: it acknowledges no segment

    def is_done(self):
        settled = self.state == 'RUNNING' and self.acknowledged == self.given and self.next > self.given and not self.is_ack_owed
        return settled and not self.hellos and not self.gone and (self.is_silent or all(map(Link.is_done, self.links)))

    def wait(self):
        """Nothing comes: all that is owed is sent again; a station that the other's start halted starts again by itself."""
        if self.state == 'HALTED':
            self.start()
        elif self.state == 'RUNNING' and self.given == self.acknowledged:
            self.link_timer()
        else:
            self.timer()

    def link_timer(self):
        for link in self.links:
            link.again = sorted(link.segments)
            link.is_owed = link.phase not in ('RUN', 'Ended')

    # ---- what the user does

    def live(self, own):
        return next((link for link in self.links if link.own == own and link.phase != 'Ended'), None)

    def free_address(self, is_opened):
        """An own address for a link that is opened here, or that a CI began."""
        return next(own for own in range(1, 65536) if not self.live(own))

    def open(self):
        link = Link(self.free_address(True), 0, 'Calling', True)
        self.lines.append('u open %d' % link.own)
        self.links.append(link)
        return link

    def answer(self, link):
        link.own = self.free_address(False)
        self.lines.append('u %s %d %d' % ('reject' if self.rejects else 'accept', link.far, link.own))
        link.goes_to('DI' if self.rejects else 'Confirming')

    def hand_in(self, link, message):
        self.lines.append('u in %d %s' % (link.own, message.hex() or '-'))
        link.messages.append(message)

    def close(self, link):
        self.lines.append('u close %d' % link.own)
        link.goes_to('DI')

    # ---- what is sent

    def compose(self):
        message = next(filter(None, self.messages()), None)
        if message is not None:
            return self.packet(message)
        if self.hellos:
            self.hellos -= 1
            return self.hello()
        return None

    def hello(self):
        return bytes([5]) + word(self.address) + bytes([self.hellos % 256])

    def packet(self, message):
        return bytes([2]) + word(self.peer) + word(self.address) + bytes([0]) + message

    def messages(self):
        """What the links have to send, in the order in which it goes."""
        if self.gone:
            yield self.disconnect_confirm(*self.gone.pop(0))
        for link in self.links:
            if link.phase == 'RUN':
                yield self.of_run(link)
            elif link.is_owed and link.phase != 'Ended':
                link.is_owed = False
                of_phase = {'Calling': self.connect, 'Called': self.connect_ack, 'Confirming': self.connect_confirm, 'DI': self.disconnect}
                yield of_phase[link.phase](link)

    def of_run(self, link):
        if link.again:
            return self.segment(link, link.again.pop(0))
        piece = self.piece(link) if self.may_give_segment(link) else None
        if piece:
            self.give_segment(link, piece)
            return self.segment(link, link.given)
        return self.data_ack(link) if link.is_ack_owed and not self.is_silent else None

    def may_give_segment(self, link):
        return link.given - link.acknowledged < 2047

    def size_of(self, link):
        return link.size

    def piece(self, link):
        """The flag byte and data of the next piece of what was handed in, or None."""
        if not link.messages:
            return None
        body = link.messages[0][link.offset:link.offset + self.size_of(link)]
        link.offset += len(body)
        is_last = link.offset == len(link.messages[0])
        flag = (BEGINS if link.offset == len(body) else 0) | (ENDS if is_last else 0)
        if is_last:
            link.messages.pop(0)
            link.offset = 0
        return flag, body

    def give_segment(self, link, piece):
        link.given += 1
        link.segments[link.given] = piece

    def addresses(self, link):
        return word(link.far) + word(link.own)

    def segment(self, link, number):
        flag, body = link.segments[number]
        words = self.ack_word(link) if link.is_ack_owed and not self.is_silent else b''
        return bytes([flag]) + self.addresses(link) + words + word(number % 4096) + body

    def ack_word(self, link):
        link.is_ack_owed = False
        return word(0x8000 | link.received % 4096)

    def data_ack(self, link):
        return bytes([DATA_ACK]) + self.addresses(link) + self.ack_word(link)

    def connect(self, link):
        return bytes([CI]) + word(0) + word(link.own) + bytes([1, 2]) + word(self.SIZE)

    def connect_ack(self, link):
        return bytes([CONNECT_ACK]) + word(link.far)

    def connect_confirm(self, link):
        return bytes([CC]) + self.addresses(link) + bytes([1, 2]) + word(self.SIZE) + bytes([0])

    def disconnect(self, link):
        return bytes([DI]) + self.addresses(link) + word(0)

    def disconnect_confirm(self, far, own):
        return bytes([DC]) + word(far) + word(own) + word(42)

    # ---- what arrives

    def arrive(self, packet):
        addressed = packet[:5] == bytes([2]) + word(self.address) + word(self.peer)
        if not addressed or len(packet) < 9:
            return
        flag, far_to, rest = packet[6], struct.unpack('<H', packet[7:9])[0], packet[9:]
        if len(rest) < 2:
            return
        far, rest = struct.unpack('<H', rest[:2])[0], rest[2:]
        if flag == CI:
            self.come_connect(far, struct.unpack('<H', rest[2:4])[0])
        elif flag == CC:
            self.come_confirm(far_to, far, struct.unpack('<H', rest[2:4])[0])
        elif flag in (DI, DC):
            self.come_disconnect(flag, far_to, far)
        elif flag in (0, BEGINS, ENDS, BEGINS | ENDS, DATA_ACK):
            link = self.live(far_to)
            if link and link.far == far and link.phase in ('Confirming', 'RUN'):
                self.come_in_run(link, flag, rest)

    def come_connect(self, far, size):
        if not any(link.far == far and link.phase != 'Ended' for link in self.links):
            self.links.append(Link(0, far, 'Called', False, size))

    def come_confirm(self, own, far, size):
        link = self.live(own)
        if link and link.phase == 'Calling':
            link.far, link.size = far, size
            link.goes_to('RUN')
        if link and (link.phase, link.far) == ('RUN', far):
            link.is_ack_owed = True  # so that the other end is in RUN too

    def come_disconnect(self, flag, own, far):
        link = self.live(own)
        if link and (link.far == far or link.phase == 'Calling'):
            link.goes_to('Ended')
        if flag == DI:
            self.gone.append((far, own))

    def come_in_run(self, link, flag, rest):
        if link.phase == 'Confirming':
            link.goes_to('RUN')
        while len(rest) >= 2 and rest[1] & 0x80:
            self.come_ack(link, struct.unpack('<H', rest[:2])[0])
            rest = rest[2:]
        if flag != DATA_ACK and len(rest) >= 2:
            self.come_segment(link, struct.unpack('<H', rest[:2])[0] % 4096, flag, rest[2:])

    def come_ack(self, link, number):
        ahead = (number - link.acknowledged) % 4096
        if number < 0xa000 and ahead <= link.given - link.acknowledged:
            for _ in range(ahead):
                link.acknowledged += 1
                del link.segments[link.acknowledged]
            if ahead:
                link.again = [each for each in link.again if each > link.acknowledged]

    def come_segment(self, link, number, flag, body):
        ahead = (number - link.received) % 4096
        link.is_ack_owed = True
        if 1 <= ahead <= 2047:
            link.held[link.received + ahead] = flag, body
        while link.received + 1 in link.held:
            link.received += 1
            self.take_segment(link, *link.held.pop(link.received))

    def take_segment(self, link, flag, body):
        link.message += body
        if flag & ENDS:
            self.deliver(link, link.message)
            link.message = b''

    def deliver(self, link, message):
        self.lines.append('u up %d %s' % (link.own, message.hex() or '-'))
