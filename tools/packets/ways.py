"""What one side of a line sent, put together from the packets that a file has."""
import heapq
from collections import namedtuple

from packets.units import DATA, addresses_in, has_good_data, units_in

SYN = 0x02
WRAP = 1 << 32  # TCP counts bytes modulo this
PADS = b'\x96\xff'  # between units
Loss = namedtuple('Loss', 'packet count')  # this packet shows that so many bytes are missing


class Way:
    """What one side sent over UDP. `pieces` are (packet, bytes) in the order in which they passed."""

    def __init__(self):
        self.pieces, self.losses = [], []
        self.units = self.bytes_in_units = self.bytes_between = 0
        self.left_out = 0  # bytes of units that were cut
        self.is_short = False  # the file has only the first bytes of some packet
        self.named = {}  # the first address of each kind, as (address, in what, packet), by whose it is and whether a data packet says it

    def write(self, packet, whole, units):
        """These bytes passed with this packet, and these units are in them."""
        if whole:
            self.pieces.append((packet, whole))
        self.units += len(units)
        inside = sum(map(len, units))
        self.bytes_in_units += inside
        self.bytes_between += max(0, len(whole) - inside - sum(map(whole.count, PADS)))
        for unit in units:
            where, own, peer = addresses_in(unit)
            for whose, address in (('own', own), ('peer', peer)):
                if address and (whose, where == DATA) not in self.named and has_good_data(unit):
                    self.named[whose, where == DATA] = address, where, packet

    def take(self, packet):
        if len(packet.payload) == packet.length:
            self.write(packet, packet.payload, units_in(packet.payload)[0])
        else:
            self.is_short = True
            self.left_out += len(packet.payload)
            self.losses.append(Loss(packet, packet.length - len(packet.payload)))

    def end(self, _):
        """All packets were taken."""


class Stream(Way):
    """The same over a TCP connection: bytes that are numbered, and may come again or in another order. A unit is written when it is whole."""

    def __init__(self):
        super().__init__()
        self.next = None  # the number of the next byte
        self.later = []  # packets beyond the next byte, by the numbers of their first ones
        self.heard = []  # packets of the other side that acknowledge more than the file had so far, with the number
        self.begun = b''

    def number(self, wrapped):
        """The number that these 32 bits of it mean: the one nearest to the next byte."""
        if self.next is None:
            self.next = wrapped
        return self.next + (wrapped - self.next + WRAP // 2) % WRAP - WRAP // 2

    def take(self, packet):
        number = self.number(packet.sequence)
        if packet.flags & SYN:
            number += 1
            self.next = max(self.next, number)
        self.is_short |= len(packet.payload) < packet.length
        if packet.payload:
            heapq.heappush(self.later, (number, packet.moment, packet))
        self.follow()

    def hear(self, packet):
        """The other side acknowledges with this packet."""
        number = self.number(packet.acknowledged)
        if number > self.next:
            self.heard.append((number, packet))

    def follow(self):
        """Takes what is next, up to a gap: each part where it and those before it have passed."""
        last = None
        while self.later and self.later[0][0] <= self.next:
            number, _, later = heapq.heappop(self.later)
            if last is None or later.moment > last.moment:
                last = later
            fresh = later.payload[self.next - number:]
            self.next += len(fresh)
            held = self.begun + fresh
            units, at = units_in(held)
            self.begun = held[at:]
            self.write(last, held[:at], units)

    def end(self, goes_on):
        """Notes what is missing; with `goes_on` what passed after it is taken too."""
        while first := self.first_after_gap():
            number = self.later[0][0] if self.later else max(number for number, _ in self.heard)
            self.losses.append(Loss(first, number - self.next))
            self.cut()
            if not goes_on:
                break
            self.next = number
            self.follow()
        self.cut()

    def first_after_gap(self):
        """The packet that shows that bytes are missing, or None. One that is acknowledged beyond the last byte is the end of the connection."""
        showing = [packet for _, _, packet in self.later] + [packet for number, packet in self.heard if number > self.next + 1]
        return min(showing, key=lambda packet: packet.moment, default=None)

    def cut(self):
        self.left_out += len(self.begun)
        self.begun = b''
