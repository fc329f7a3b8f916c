"""Whose record it is that `check --all` leaves out, and which links go with it, by the second reading of the rules. An *end* is a letter of a side
and an address that it gives, or 0, which stands for none. A part of tools/reading/all.py."""
from reading.alone import message_in
from reading.packets import read_packet, read_unit

OTHER = {'a': 'b', 'b': 'a'}
RECEIPTS = 'r', 'k', 'd'
EVENTS = 'open', 'accept', 'reject', 'in', 'up', 'close', 'abort'
MAY_LACK = 'CI', 'connect ack', 'DI', 'DC'  # messages that may have no own address

# what is refused of a link: WrongNode, and from NoLink to AddressInUse
OF_LINKS = 16, 18, 19, 20, 21, 22, 23, 24, 25, 26
# what is not asked any more once a record was refused for this reason
FROM_HERE = {
    13: 'periods are not asked',
    15: 'packets that cannot be read are carried',
    17: 'messages that cannot be read are carried',
}


# ---- what a record is

def packet_of(record):
    """The packet in a record, or None."""
    verb, *words = record
    if verb == 'x':
        return bytes.fromhex(words[0].replace('-', ''))
    if verb not in ('s', *RECEIPTS):
        return None
    unit = read_unit(words[-1].replace('-', ''))
    return unit.packet if unit.kind == 'data' else None


def message_of(record):
    """The message of the links in a record, or None."""
    packet = packet_of(record)
    return None if packet is None else message_in(packet)[1]


def why_unread(text):
    """The reason for which a packet, or the message in it, can't be read; None where both can."""
    packet = read_packet(text)
    if packet is None:
        return 15
    return 17 if packet.nsp is not None and not packet.returned and message_in(text)[1] is None else None


class Grouping:
    """Which end a record is of, and which ends are one group."""

    # -- whose message and whose event it is

    def ends_of(self, letter, record):
        """The ends that a record of this side is of, that of its maker first; none where it is of no link."""
        if record[0] == 'u':
            return self.ends_of_event(letter, record[1:])
        message = message_of(record)
        return [] if message is None else [self.end_of(letter, message, record[0] in RECEIPTS)]

    def ends_of_event(self, letter, words):
        """The ends of an event: an answer to a call is of both."""
        if words[0] in ('accept', 'reject'):
            return [(letter, int(words[2])), (OTHER[letter], int(words[1]))]
        return [(letter, int(words[1]))] if len(words) > 1 else []

    def end_of(self, letter, message, comes):
        """The end of a message that this side sends, or that comes to it: the own one where the message has it, then the other one; of a message
        that has neither, address 0 of its sender."""
        own, far = (message.destination, message.source) if comes else (message.source, message.destination)
        if own:
            return letter, own
        return (OTHER[letter], far) if far else self.no_link(letter, comes)

    def no_link(self, letter, comes):
        """What stands for the link of a message that names none."""
        return (OTHER[letter] if comes else letter, 0)

    # -- groups

    def bound(self, letter, record, verbs):
        """Both ends that a record binds, or None: an answer to a call, a CC by one of these verbs, or address 0 of both ends an answer to a call
        from there."""
        if record[0] == 'u' and record[1] in ('accept', 'reject'):
            return (letter, int(record[3])), (OTHER[letter], int(record[2]))
        message = message_of(record) if record[0] in verbs else None
        comes = record[0] in RECEIPTS
        if self.is_at_0(message, comes):
            return (letter, 0), (OTHER[letter], 0)
        if message is None or message.kind != 'CC' or not (message.source and message.destination):
            return None
        ends = (letter, message.source), (OTHER[letter], message.destination)
        return ((letter, message.destination), (OTHER[letter], message.source)) if comes else ends

    def is_at_0(self, message, comes):
        """Whether a message puts address 0 of both ends together: a connect ack that is sent to address 0, which is as if it were of its sender's 0;
        where an end is alone also the call from there that comes, or its confirmation."""
        if message is None or message.source:
            return False
        return message.kind in ('CI', 'CC') if comes else message.kind == 'connect ack' and not message.destination

    def bindings(self, letter, text, verbs):
        """What the records of a text bind, as far as it can be read: of each that does the letter, the place, and both ends."""
        records = [line.split(' ') for line in text.splitlines()[1:]]
        bound = [(letter, place, self.bound(letter, record, verbs)) for place, record in enumerate(records)]
        return [binding for binding in bound if binding[2] is not None]

    def group_of(self, end, bindings, made):
        """All ends that are bound to this one, one after another. `made` are the records that were made, by side."""
        neighbours = {}
        for letter, place, (one, other) in bindings:
            neighbours.setdefault(one, set()).add(other)
            neighbours.setdefault(other, set()).add(one)
        group, front = {end}, [end]
        while front:
            more = neighbours.get(front.pop(), set()) - group
            group |= more
            front += more
        return group
