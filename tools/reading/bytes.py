"""What `ddcap why` says of the check at the reasons 5, 10, 20 and 24, where bytes are compared, by the second reading: of a packet that is sent
again, and of a unit that came otherwise and reads alike, the first byte that differs, of a segment or of a message the first bytes. A part of
tools/reading/why.py."""
from reading.flow import BEGINS, ENDS, distance, wire
from reading.judging import RULES
from reading.ladder import said
from reading.packets import read_nsp, read_packet, read_unit

TOLD = 16  # at most so many bytes are told


def check_of(number, side, other, letter, words):
    """The name of the check that the record of these words does not pass, what is seen and what is allowed; None where no bytes are compared. The
    letter is that of the other side."""
    if number == 5:
        return undetected(letter, int(words[1]), words[2], other.units[int(words[1])][0])
    if number == 10:
        unit = read_unit(words[1])
        return as_first_sent(unit.num, unit.packet, side.station.packets[side.station.next])
    if number == 20:
        packet = bytes.fromhex(words[1]) if words[0] == 'x' else read_unit(words[1]).packet
        return segment_check(side.links, read_nsp(read_packet(packet).nsp))
    return delivery_check(side.links, int(words[2]), bytes.fromhex(words[3].replace('-', ''))) if number == 24 else None


def counted(number, thing='byte'):
    return '%d %s%s' % (number, thing, 's' * (number != 1))


# ---- a unit that came otherwise

def undetected(letter, number, came, sent):
    """Where both read alike, the byte in which they differ is told."""
    seen, allowed = [said(digits, True).replace('bad header', 'header bad').replace('bad data', 'data bad') for digits in (came, sent)]
    tells = ['', '']
    if seen == allowed:
        both = bytes.fromhex(came), bytes.fromhex(sent)
        place = first_difference(*both)
        tells = [', of which byte %d is %s, and it has %s' % (place, byte_at(data, place), counted(len(data))) for data in both]
    return 'the line', seen + tells[0], '%s, the bytes of unit %d of %s%s; or damaged bytes' % (allowed, number, letter, tells[1])


# ---- a packet that is sent again

def first_difference(data, other):
    return next((place for place, both in enumerate(zip(data, other)) if both[0] != both[1]), min(len(data), len(other)))


def as_first_sent(num, packet, first):
    place = first_difference(packet, first)
    seen = 'byte %d of the data is %s, and it has %s' % (place, byte_at(packet, place), counted(len(packet)))
    return 'AsFirstGiven', seen, 'byte %d is %s, and %s, as number %d was first sent' % (place, byte_at(first, place), counted(len(first)), num)


def byte_at(packet, place):
    return packet[place:place + 1].hex() or 'none'


# ---- a segment

def segment_check(links, message):
    flow = next(link.flow for link in links.links if link.phase == 'RUN' and (link.own, link.far) == (message.source, message.destination))
    row = RULES['sends segment']
    seen = piece_words(message.flag, message.body)
    if message.segnum == wire(row, flow.given + 1):
        return 'next piece', seen, next_words(flow, len(message.body))
    number = flow.given - distance(row, message.segnum, wire(row, flow.given))
    if not flow.one_of_the_last(row, number):
        return None
    again = 'segment %d again, ' % message.segnum
    return 'as first given', again + 'but changed: ' + seen, again + 'as first sent: ' + piece_words(*flow.pieces[number])


def next_words(flow, length):
    """What the next new segment of so many bytes has to carry."""
    if not flow.handed:
        return 'no new segment: nothing is left of what was handed in'
    rest = flow.handed[0]
    parts = {(True, False): 'begins it', (True, True): 'begins and ends it', (False, False): 'goes on with it'}
    part = parts.get((not flow.is_begun, length >= len(rest)), 'goes on with it and ends it')
    return 'the next of %s of the message%s, %s' % (counted(len(rest)), front(': ', rest), part)


def piece_words(flag, data):
    words = {BEGINS | ENDS: 'begins and ends', BEGINS: 'begins', ENDS: 'ends', 0: 'neither begins nor ends'}[flag & (BEGINS | ENDS)]
    return '%s%s, %s' % (counted(len(data)), front(' ', data), words)


# ---- a message that is delivered

def delivery_check(links, own, message):
    """The look-up is that of the link that has the address, or had it when it ended."""
    flow = links.find(RULES['user up'], RULES['user up']['look_up'], own).flow
    seen = 'a message of %s%s' % (counted(len(message)), front(': ', message))
    whole = flow.whole()
    if not whole:
        return 'delivery', seen, 'the next whole message: each that is whole was delivered before'
    due = whole[0][1]
    first = flow.held[min(number for number in flow.held if number > flow.delivered)][1]
    return 'delivery', seen, 'the next whole message, which has %s%s' % (counted(len(due)), front(': ', first, len(due)))


def front(before, data, length=None):
    """The digits of the first bytes of so many, which begin with the data; nothing where there is none."""
    length = len(data) if length is None else length
    return before + data[:TOLD].hex() + '..' * (length > len(data[:TOLD])) if length else ''
