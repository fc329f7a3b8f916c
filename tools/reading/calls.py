"""Which calls of a node may go on though it sent a DC for them: one that was composed for an earlier CI, and waited in a queue while the CI came
again. `dc_waited(records, words)` says it of a record that is refused for 18, behind these records of its side. A part of tools/reading/why.py."""
from reading.packets import read_nsp, read_packet, read_unit


def message_in(packet):
    """The message of the links in a packet, or None."""
    packet = read_packet(packet) if packet else None
    return read_nsp(packet.nsp) if packet and packet.nsp is not None and not packet.returned else None


def messages(records):
    """The records of a side, each with the message that it keeps or composes, or None. Of a data message only the first sending counts."""
    given = 0
    for words in records:
        message = None
        if words[0] == 'x':
            message = message_in(bytes.fromhex(words[1].replace('-', '')))
        elif words[0] in ('s', 'k'):
            unit = read_unit(words[-1].replace('-', ''))
            is_again = words[0] == 's' and unit.num != (given + 1) % 256
            if unit.kind == 'data' and not is_again:
                given = unit.num if words[0] == 's' else given
                message = message_in(unit.packet)
        elif words[:2] in (['u', 'start'], ['u', 'halt']):
            given = 0
        yield words, message


class Node:
    """What a node with a queue may be like for the calls from one address: each of its `ways` is how many DCs wait in its queue, and whether a call
    from there goes on that its user has not answered. `ends` are the far addresses of its links with own ones, None where not known."""

    def __init__(self, far):
        self.far, self.ends = far, {}
        self.ways = {(0, False)}

    def make(self, words, message):
        """The node makes a record."""
        kind = message.kind if message else ' '.join(words[:2])
        if words[0] == 'k' and message:
            self.keep(kind, message.destination, message.source)
        elif words[0] in ('s', 'x') and kind == 'DC' and (message.source, message.destination) == (0, self.far):
            self.ways = {(waiting - 1, goes_on) for waiting, goes_on in self.with_refused() if waiting} or {(0, False)}
        elif kind in ('u accept', 'u reject'):
            self.ends[int(words[3])] = int(words[2])
            if int(words[2]) == self.far:
                self.ways = {(waiting, False) for waiting, goes_on in self.ways if goes_on} or {(0, False)}
        elif kind == 'u open':
            self.ends[int(words[2])] = None
        elif kind == 'u abort':
            self.ends.pop(int(words[2]), None)
        elif kind == 'u boot':
            self.ends, self.ways = {}, {(0, False)}

    def keep(self, kind, own, far):
        """It keeps a message for its link with this own address. A CI for a link that has one is a repeat of one that was answered."""
        if kind == 'CI' and far == self.far and far not in self.ends.values():
            begun = {(waiting, True) for waiting, _ in self.ways}
            self.ways = begun | {(waiting + 1, False) for waiting, goes_on in self.ways if not goes_on}
            self.ways = self.with_refused()
        elif kind == 'CC' and own in self.ends and self.ends[own] is None:
            self.ends[own] = far
        elif kind in ('DI', 'DC') and own in self.ends and self.ends[own] in (None, far):
            del self.ends[own]

    def with_refused(self):
        """A call may be refused at any time, by a DC that waits from then on."""
        return self.ways | {(waiting + 1, False) for waiting, goes_on in self.ways if goes_on}


def dc_waited(records, words):
    """Whether the record answers a call that may go on: an accept or a reject of the user, or a connect acknowledgement."""
    if words[:2] in (['u', 'accept'], ['u', 'reject']):
        far = int(words[2])
    elif words[0] in ('s', 'x'):
        text = words[1].replace('-', '')
        message = message_in(read_unit(text).packet if words[0] == 's' else bytes.fromhex(text))
        if message is None or message.kind != 'connect ack':
            return False
        far = message.destination
    else:
        return False
    node = Node(far)
    for record, message in messages(records):
        node.make(record, message)
    return any(goes_on for _, goes_on in node.ways)
