"""Units and the messages of links for the reading of the player's rules, as the pages PROTOCOL and LINKS spell them."""
from collections import namedtuple

from captures import register_over, with_check, word

# A message of a station. Those that are none: kind is 'header bad', 'data bad' or 'malformed', and nothing else is known.
Message = namedtuple('Message', 'kind resp num reason packet', defaults=(0, 0, 0, b''))

TYPES = {'ACK': 1, 'NAK': 2, 'REP': 3, 'STRT': 6, 'STACK': 7}
REASONS = (1, 2, 3, 8, 9, 16, 17)

# SERVICES 1, INFO 2, SEGSIZE 512
CONNECT = bytes([1, 2, 0, 2])

# the longest piece
PIECE = 512


def checks(field):
    """Whether the last two bytes are the block check of the others."""
    return len(field) >= 2 and register_over(field[:-2]) == int.from_bytes(field[-2:], 'little')


def reading(unit):
    """What a station reads of these bytes; the first departure counts."""
    if len(unit) < 8 or not checks(unit[:8]):
        return Message('header bad')
    if unit[0] == 0x81:
        return data_reading(unit)
    if unit[0] == 5 and len(unit) == 8:
        return control_reading(unit)
    return Message('malformed')


def data_reading(unit):
    """What is read of bytes with a good header whose first byte is that of a data message."""
    count = unit[1] + 256 * (unit[2] & 63)
    if count and (len(unit) < count + 10 or not checks(unit[8:count + 10])):
        return Message('data bad')
    if count == 0 or len(unit) > count + 10 or unit[5] != 1:
        return Message('malformed')
    return Message('data', unit[3], unit[4], packet=unit[8:-2])


def control_reading(unit):
    """What is read of a control message's eight bytes."""
    kinds = {number: kind for kind, number in TYPES.items()}
    kind, reason = kinds.get(unit[1]), unit[2] & 63
    if kind is None or (reason not in REASONS if kind == 'NAK' else reason != 0) or unit[5] != 1:
        return Message('malformed')
    if unit[3] and kind not in ('ACK', 'NAK') or unit[4] and kind != 'REP':
        return Message('malformed')
    return Message(kind, unit[3], unit[4], reason)


def control_unit(kind, resp=0, num=0, reason=0, flags=0):
    """The bytes of a control message."""
    return with_check(bytes([5, TYPES[kind], reason | flags, resp, num, 1]))


def data_unit(resp, num, packet):
    """The bytes of a data message with this packet."""
    return with_check(bytes([0x81, len(packet) & 255, len(packet) >> 8, resp, num, 1])) + with_check(packet)


# What a link gets. `words` are the acknowledgement words; `rest` are the fields after the addresses that are here.
ToLink = namedtuple('ToLink', 'flag far own number words rest', defaults=(0, (), b''))


def link_message(nsp):
    """The fields of a message, with the sender's address as the far one."""
    fields = [int.from_bytes(nsp[place:place + 2], 'little') for place in range(1, len(nsp) - 1, 2)]
    own, far = fields[0], fields[1] if len(fields) > 1 else 0
    if nsp[0] == 4:
        return ToLink(4, far, own, words=tuple(fields[2:]))
    if nsp[0] & 0x9f == 0:
        return ToLink(nsp[0], far, own, number=fields[2], rest=nsp[7:])
    return ToLink(nsp[0], far, own)


def addressed(flag, far, own, rest=b''):
    """The bytes of a message to the link with this far address from the one with this own address."""
    return bytes([flag]) + word(far) + word(own) + rest
