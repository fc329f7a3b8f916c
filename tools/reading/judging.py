"""A second reading of the rules: it judges pairs of captures as docs/PROTOCOL.md and docs/LINKS.md tell, apart from the program.
`judged(rules, a, b)` is the answer to the captures of both sides; `RULES` are the rules. `queued` is of nodes with queues between NSP and DDCMP,
whose links tools/reading/queues.py has, and `line` of the line alone, with no packet read. How each rule can be misread is beside it, in
tools/reading/turns."""
from collections import Counter

from reading.line import WithoutLinks
from reading.links import NO_TAG, Links, link_rules
from reading.messages import gets, sends
from reading.near import composed, event_carried, lost_above
from reading.packets import DATA_BAD, HEADER_BAD, MALFORMED, read_nsp, read_packet, read_unit
from reading.queues import QueuedLinks, queue_rules
from reading.rows import Departs, Refused
from reading.station import Station
from reading.station_rules import station_rules

DAMAGED = HEADER_BAD, DATA_BAD
NAMES = [
    'NotAMessage', 'HintOrder', 'NoSuchUnit', 'NoOrder', 'Undetected', 'WrongState', 'WrongNumber', 'WrongResponse', 'WindowFull', 'Changed',
    'NoCause', 'WrongKeep', 'CrossedPeriod', 'WrongUserEvent', 'BadPacket', 'WrongNode', 'BadNsp', 'NoLink', 'LinkState', 'WrongSegment',
    'WrongAck', 'SegmentTooLong', 'LinkWindowFull', 'WrongDelivery', 'CrossedLink', 'AddressInUse', 'NotNoise',
]
RULES = {**station_rules(), **link_rules(), **queue_rules()}
RECEIPTS = 'r', 'k', 'd'


def node_of(text):
    """The word of a node address."""
    area, number = text.split('.')
    return int(area) * 1024 + int(number)


class Side:
    """A node with its capture: its records one after another, and the units that it sent, each with the tags of its sender and of its link. `came`
    are the number of the last unit of the other side that came, and one more: the front."""

    def __init__(self, rules, text, queued=False):
        head, *lines = text.splitlines()
        self.rules = rules
        self.own, self.peer = [node_of(address) for address in head.split()[2:]]
        self.records = [line.split(' ') for line in lines]
        if head.split()[1] == '2':
            self.counts_hints()
        self.next = 0
        self.units, self.front = [], 0
        self.station = Station(rules)
        self.new_links = QueuedLinks if queued else Links
        self.links = self.new_links(rules, self.own, self.peer)
        self.counts = Counter(records=len(lines))

    def counts_hints(self):
        """In format 2 a hint is a distance from the front."""
        front = 0
        for record in self.records:
            if record[0] in RECEIPTS:
                front += int(record[1])
                record[1] = str(front)
                front += 1

    def has_ended(self):
        return self.next == len(self.records)

    def waits(self, other):
        """Whether the next record is the receipt of a unit that is not sent yet."""
        record = self.records[self.next]
        return record[0] in RECEIPTS and int(record[1]) >= len(other.units) and int(record[1]) >= self.front

    def make(self, other):
        """Makes the next record; a Refused where it can't be made."""
        verb, *words = self.records[self.next]
        if verb == 'u':
            self.user(words)
        elif verb == 's':
            self.sends(words[0])
        elif verb == 'x':
            composed(self, words[0].replace('-', ''))
        elif verb == 'n':
            self.hears_noise(words[0].replace('-', ''))
        elif verb == '!':
            raise Departs(' '.join(words))
        else:
            self.receives(other, int(words[0]), words[1].replace('-', ''), verb)
        self.next += 1

    def user(self, words):
        """An event of the station, or of a link."""
        if words[0] in ('interrupt', 'interrupted'):
            return event_carried(self, words)
        if len(words) > 1:
            return self.links.user(words)
        self.station.user(words[0])
        self.counts['periods'] += words[0] == 'start'
        if words[0] == 'boot':
            return self.boots()
        return None

    def boots(self):
        """What a boot does besides at the links and the counts."""
        self.boots_links()

    def boots_links(self):
        self.links.boots()

    # -- what is sent

    def sends(self, text):
        """Bytes are sent."""
        unit = read_unit(text.replace('-', ''))
        if unit in (HEADER_BAD, DATA_BAD, MALFORMED):
            raise Refused(1)
        self.sends_unit(unit, text)

    def sends_unit(self, unit, text):
        """A sound unit is sent."""
        label = NO_TAG
        tag, number = self.station.tag(), self.station.next
        is_first = self.station.sends(unit)
        first = self.station.firsts.get(number) if unit.kind == 'data' else None
        if unit.kind == 'data':
            label = self.label_of(unit, is_first)
        self.units.append((text, unit, first, (tag, label)))

    def label_of(self, unit, is_first):
        """The tag of the message in a packet that is sent, which is that of its first sending."""
        if is_first:
            label = self.meets(unit.packet)
        else:
            label = self.station.label_of_last()
        self.station.labels[self.station.next - 1] = label
        return label or NO_TAG

    def meets(self, text):
        """The links meet a packet that is sent. The tag of its message."""
        packet = read_packet(text)
        if packet is None:
            raise Refused(15)
        message = self.message_of(packet)
        if message is None:
            return NO_TAG
        return sends(self.links, packet, message)

    def message_of(self, packet):
        """The message for the links in a packet, or None."""
        if packet is None or packet.nsp is None:
            return None
        message = read_nsp(packet.nsp)
        if packet.returned:
            return None
        if message is None:
            raise Refused(17)
        return message

    # -- what comes

    def receives(self, other, hint, text, verb):
        """A receipt: its unit was sent."""
        if hint < self.front:
            raise Refused(2)
        sent, unit, _, (tag, label) = other.units[hint]
        self.front = hint + 1
        if text != sent.replace('-', ''):
            unit, tag = damaged(text), None if read_unit(text) in DAMAGED else tag
        self.comes(unit, tag, label, verb)
        self.counts_receipt(unit in DAMAGED, verb)

    def counts_receipt(self, is_damaged, verb):
        """A receipt counts; one that is lost above as kept."""
        self.counts.update(received=1, damaged=is_damaged, kept=verb in ('k', 'd'))

    def comes(self, unit, tag, label, verb):
        """A unit comes to the station, and a packet that it takes to the links, unless it is lost in between."""
        if verb == 'd':
            lost_above(self, unit, tag)
        elif self.station.gets(unit, tag, verb == 'k'):
            self.kept(unit.packet, label)

    def kept(self, text, label):
        """A packet is kept: the links get its message."""
        packet = read_packet(text)
        message = read_nsp(packet.nsp) if packet and packet.nsp is not None and not packet.returned else None
        if message is not None:
            gets(self.links, packet, message, label)

    def hears_noise(self, text):
        """Bytes come that nobody sent."""
        unit = read_unit(text)
        if unit not in DAMAGED:
            raise Refused(27)
        self.station.gets(unit, None, False)
        self.counts.update(received=1, damaged=1)

    def ends(self):
        """The counts of its line in an acceptance."""
        counts = {**self.counts, 'sent': len(self.units), 'links': len(self.links.links), 'up': self.links.delivered}
        return ' '.join('%s %d' % (name, counts.get(name, 0)) for name in 'records sent received damaged kept periods links up'.split())


def damaged(text):
    """What bytes read as that are not those of the unit."""
    came = read_unit(text)
    if came in DAMAGED:
        return came
    raise Refused(5)


class StationSide(WithoutLinks, Side):
    """A station with its capture."""


def judged(rules, a, b, queued=False, line=False):
    """What is printed for these two captures: side a goes on until it waits or has ended, and then side b makes a record."""
    kind = StationSide if line else Side
    sides = kind(rules, a, queued), kind(rules, b, queued)
    refused = first_refused(rules, sides)
    if refused is None:
        return 'accepted\na %s\nb %s\n' % (sides[0].ends(), sides[1].ends())
    side, reason = refused
    return 'refused %s %d line %d: %d %s\n' % ('ab'[sides.index(side)], side.next, side.next + 2, reason, NAMES[reason - 1])


def first_refused(rules, sides):
    """Both sides make their records: the side whose next one is refused and the reason, or None where all are made."""
    while not all(side.has_ended() for side in sides):
        able = [letter for letter in (0, 1) if not sides[letter].has_ended() and not sides[letter].waits(sides[1 - letter])]
        letter = able[0] if able else min(letter for letter in (0, 1) if not sides[letter].has_ended())
        side = sides[letter]
        try:
            if not able:
                raise Refused(3 if sides[1 - letter].has_ended() else 4)
            side.make(sides[1 - letter])
        except Refused as refusal:
            return side, refusal.reason
    return None


