"""What bytes say, as docs/PROTOCOL.md tells it: units, packets, and the messages of NSP, each kind with its fields in a table. A part of
tools/reading/judging.py, which judges pairs apart from the program."""
from collections import namedtuple
from functools import lru_cache

from captures import with_check

# ---- units

# `kind` of a unit is a name of SENT in tools/reading/turns/station.py, but NAK for both kinds of it, or one of HEADER_BAD, DATA_BAD and MALFORMED.
# `flags` are QSYNC and SELECT, as the bits 6 and 7 that they are.
Unit = namedtuple('Unit', 'kind flags resp num reason packet')
HEADER_BAD, DATA_BAD, MALFORMED = [Unit(kind, None, None, None, None, None) for kind in ('bad header', 'bad data', 'malformed')]

# TYPE of a control message: what it is, and which of its bytes say something; the others are 0. Of all but a NAK SUBTYPE is 0.
CONTROL = {1: ('ACK', 'resp'), 2: ('NAK', 'resp'), 3: ('REP', 'num'), 6: ('STRT', ''), 7: ('STACK', '')}
NAK_REASONS = (1, 2, 3, 8, 9, 16, 17)


def checks(field):
    """Whether the last two bytes are the block check of those in front of them."""
    return len(field) >= 2 and with_check(field[:-2]) == field


@lru_cache(maxsize=None)
def read_unit(text):
    """The unit that these bytes, written as digits, spell."""
    unit = bytes.fromhex(text)
    if len(unit) < 8 or not checks(unit[:8]):
        return HEADER_BAD
    return {0x81: read_data, 0x05: read_control}.get(unit[0], lambda unit: MALFORMED)(unit)


def read_data(unit):
    """A unit that begins as a data message, with a good header."""
    count = unit[1] + 256 * (unit[2] & 63)
    if count == 0:
        return MALFORMED
    if len(unit) < count + 10 or not checks(unit[8:count + 10]):
        return DATA_BAD
    if len(unit) > count + 10 or unit[5] != 1:
        return MALFORMED
    return Unit('data', unit[2] & 0xc0, unit[3], unit[4], None, unit[8:-2])


def read_control(unit):
    """A unit that begins as a control message, with a good header."""
    subtype, resp, num = unit[2] & 63, unit[3], unit[4]
    kind, said = CONTROL.get(unit[1], (None, None))
    right = subtype in NAK_REASONS if kind == 'NAK' else subtype == 0
    zeros = [byte for name, byte in (('resp', resp), ('num', num)) if name != said]
    if len(unit) > 8 or kind is None or not right or any(zeros) or unit[5] != 1:
        return MALFORMED
    return Unit(kind, unit[2] & 0xc0, resp, num, subtype, None)


# ---- packets

# `nsp` is None in a routing control packet.
Packet = namedtuple('Packet', 'flags returned destination source forward nsp')
CONTROL_PACKET = Packet(0, False, None, None, 0, None)


def number(two):
    """The word of these two bytes."""
    return two[0] + 256 * two[1]


@lru_cache(maxsize=None)
def read_packet(packet):
    """The packet, or None where it can't be read."""
    if not packet or packet[0] & 0x80:
        return None
    if packet[0] & 1:
        return CONTROL_PACKET
    if packet[0] & 7 != 2 or len(packet) < 6:
        return None
    return Packet(packet[0], packet[0] & 0x10 != 0, number(packet[1:3]), number(packet[3:5]), packet[5], packet[6:])


# ---- the messages of NSP

# `kind` is the name that the headings of tools/lists/pairs/links.txt have for it, and `bit_12` that bit of the word with SEGNUM.
FIELDS = 'destination source words segnum body services info segsize reason rest'
Nsp = namedtuple('Nsp', 'kind flag bit_12 ' + FIELDS)
NO_FIELDS = Nsp(None, 0, False, 0, 0, (), None, b'', None, None, 0, None, b'')

# the fields after a flag byte, from left to right
CONNECT = 'source services info segsize rest'
MESSAGES = {
    0x10: ('link service', 'destination source rest'),
    0x30: ('interrupt', 'destination source rest'),
    0x04: ('data ack', 'destination source words end'),
    0x14: ('other-data ack', 'destination source rest'),
    0x24: ('connect ack', 'destination end'),
    0x08: ('no operation', 'rest'),
    0x18: ('CI', 'zero ' + CONNECT),
    0x68: ('CI', 'zero ' + CONNECT),
    0x28: ('CC', 'destination ' + CONNECT),
    0x38: ('DI', 'destination source reason rest'),
    0x48: ('DC', 'destination source reason end'),
    **{flag: ('segment', 'destination source words segnum body') for flag in (0x00, 0x20, 0x40, 0x60)},
}


class Unreadable(Exception):
    """A field is missing, or is not what it may be."""


def word_at(message, place):
    """The word at this place."""
    if place + 2 > len(message):
        raise Unreadable
    return number(message[place:])


def words_at(kind, message, place):
    """The acknowledgement words from this place on: in a data ack one or two, which fill it; in a segment two at most, as bit 15 tells."""
    words = []
    while len(words) < 2 and (not words or place < len(message)):
        word = word_at(message, place)
        if kind == 'segment' and not word & 0x8000:
            break
        if not word & 0x8000 or word >> 12 & 7 > 3:
            raise Unreadable
        words.append(word)
        place += 2
        if kind == 'segment' and place + 2 > len(message):
            raise Unreadable
    return tuple(words), place


@lru_cache(maxsize=None)
def read_nsp(message):
    """The message, or None where it can't be read."""
    try:
        return fields_of(message)
    except Unreadable:
        return None


def fields_of(message):
    """The message with its fields, which are read from left to right."""
    if not message or message[0] not in MESSAGES:
        raise Unreadable
    (kind, layout), place, read = MESSAGES[message[0]], 1, {}
    for field in layout.split():
        if field == 'words':
            read[field], place = words_at(kind, message, place)
        elif field in ('services', 'info'):
            read[field], place = message[place:place + 1], place + 1
        elif field in ('rest', 'body'):
            read[field], place = message[place:], max(place, len(message))
        elif field != 'end':
            read[field] = word_at(message, place)
            place += 2
        if place > len(message):
            raise Unreadable
    is_wrong = [place < len(message), read.pop('zero', 0) != 0, (read.get('segnum') or 0) & 0xe000]
    if any(is_wrong):
        raise Unreadable
    if 'segnum' in read:
        read.update(segnum=read['segnum'] & 0x0fff, bit_12=read['segnum'] & 0x1000 != 0)
    return NO_FIELDS._replace(kind=kind, flag=message[0], **read)
