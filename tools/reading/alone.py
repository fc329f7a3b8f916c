"""The second reading of one end alone: the node of a pair with the rules on periods and on partners left out, over a line that gives what is in
each receipt; and what no right other end can have sent. `judged_alone(a)` is the answer to one capture, of a station alone where `line` is set, and
of a node with queues where `queued` is. Of such a node too an acknowledgement that comes is looked at when it is received: later the node might have
composed what was not given then. A part of tools/reading/judging.py, which judges pairs apart from the program."""
from reading.judging import NAMES, RULES, Side
from reading.line import WithoutLinks
from reading.links import NO_TAG
from reading.packets import DATA_BAD, HEADER_BAD, MALFORMED, read_nsp, read_packet, read_unit
from reading.rows import Refused

# no period and no partner is asked
FREE = {heading: row.copy(need='Anything') if 'need' in row.parts else
        row.copy(checks=[check for check in row.parts['checks'] if check not in ('SenderIsPartner', 'ForThisLink')])
        if heading.removeprefix('queued ').startswith('gets ') else row for heading, row in RULES.items()}
NO_PERIOD = (0, None)


def message_in(text):
    """A packet, and the message of the links in it, or None."""
    packet = read_packet(text)
    return packet, read_nsp(packet.nsp) if packet and packet.nsp is not None and not packet.returned else None


class ByOther(Refused):
    """The other end is accused."""


class Alone(Side):
    """One end: a receipt is what the other end sent."""


    def waits(self, other):
        return False

    def receives(self, other, hint, text, verb):
        unit = read_unit(text)
        if hint < self.front:
            raise Refused(2)
        self.front = hint + 1
        if unit == MALFORMED:
            raise ByOther(1)
        is_damaged = unit in (HEADER_BAD, DATA_BAD)
        if not is_damaged:
            self.accuses(unit)
        self.comes(unit, NO_PERIOD, NO_TAG, verb)
        self.counts_receipt(is_damaged, verb)

    def accuses(self, unit):
        """What no right end sends to one in this state, whether it is kept or not."""
        self.accuses_response(unit)
        if unit.kind == 'data':
            self.accuses_packet(unit.packet)

    def accuses_response(self, unit):
        """A RESP that is not among A to N."""
        station = self.station
        in_state = station.state == 'RUNNING'
        has_resp = unit.kind in ('ACK', 'NAK', 'data')
        resp = unit.resp if has_resp else None
        if resp is None or not in_state:
            return
        above = (resp - station.acknowledged) % 256
        outstanding = station.given - station.acknowledged
        if above > outstanding:
            raise ByOther(8)

    def accuses_packet(self, text):
        """A packet that cannot be read."""
        packet = read_packet(text)
        if packet is None:
            raise ByOther(15)
        elif packet.nsp is not None and not packet.returned and read_nsp(packet.nsp) is None:
            raise ByOther(17)

    def accuses_nodes(self, packet):
        if (packet.source, packet.destination) != (self.links.other, self.links.node):
            raise ByOther(16)

    def kept(self, text, label):
        packet, message = message_in(text)
        if message is not None:
            self.accuses_nodes(packet)
            self.accuses_message(message)
        super().kept(text, label)

    def accuses_message(self, message):
        """Of a packet that is taken: what the link that acts on it has not given."""
        if message.kind in ('segment', 'data ack'):
            row = self.links.row('gets ' + message.kind)
            link = self.links.find(row, row['look_up'], message.destination, message.source)
            if link is not None:
                acknowledged = link.flow.acknowledged
                for word in message.words:
                    acknowledged = self.accuses_word(link.flow, acknowledged, word)

    def accuses_word(self, flow, acknowledged, word):
        qualifier = word >> 12 & 7
        if qualifier > 1:
            return acknowledged
        number, reach = word & 0xfff, 2047
        ahead = (number - acknowledged) % 4096
        outstanding = flow.given - acknowledged
        if ahead <= outstanding:
            return acknowledged + ahead
        back = 4096 - ahead
        if back <= reach and (flow.given >= 2047 or back <= acknowledged):
            return acknowledged
        raise ByOther(21)


class StationAlone(WithoutLinks, Alone):
    """The same of a station with nothing on top."""

    def accuses_packet(self, text):
        pass


def judged_alone(text, line=False, queued=False):
    side = (StationAlone if line else Alone)(FREE, text, queued)
    return said_alone(side, first_refused_alone(side))


def first_refused_alone(side):
    """The side makes its records: the refusal of the first that it can't make, or None."""
    while not side.has_ended():
        try:
            side.make(None)
        except Refused as refusal:
            return refusal
    return None


def said_alone(side, refusal):
    """What is printed for this refusal of the side's next record, or for none."""
    if refusal is None:
        return 'passed\na %s\n' % side.ends()
    other = ' by the other end' if isinstance(refusal, ByOther) else ''
    return 'refused a %d line %d: %d %s%s\n' % (side.next, side.next + 2, refusal.reason, NAMES[refusal.reason - 1], other)
