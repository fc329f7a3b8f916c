"""Units in bytes that passed, as tools/wire_relay finds them, and the node addresses that the packets in them name."""
import re

START, SOH, ENQ = re.compile(b'[\x81\x05\x90]'), 0x81, 0x05  # the bytes that units begin with, those of data and of control messages
HEADER, CHECK = 8, 2
PADDED, CONTROL, SHORT, RETURNED = 0x80, 0x01, 0x02, 0x10  # bits of the first byte of a packet
INIT = 0x01
DATA = 'a data packet'


def shifted(register):
    for _ in range(8):
        register = register >> 1 ^ (0xa001 if register & 1 else 0)
    return register


AFTER_BYTE = [shifted(byte) for byte in range(256)]


def register_over(field):
    """What the block check (CRC-16, the lowest bit first) makes of these bytes: 0 where they end with their check."""
    register = 0
    for byte in field:
        register = register >> 8 ^ AFTER_BYTE[(register ^ byte) & 255]
    return register


def unit_length(held):
    """How long the unit is that this header, whole or cut, begins: 0 where it begins none, None where more bytes have to come to say."""
    if len(held) < HEADER:
        return None
    if register_over(held):
        return 0
    return HEADER if held[0] == ENQ else HEADER + (held[1] | (held[2] & 0x3f) << 8) + CHECK


def units_in(held):
    """The whole units in these bytes, and where the beginning of the next one is: at their end, if there is none."""
    units, at = [], 0
    while found := START.search(held, at):
        at = found.start()
        length = unit_length(held[at:at + HEADER])
        if length is None or at + length > len(held):
            return units, at
        if length:
            units.append(held[at:at + length])
        at += length or 1
    return units, len(held)


def node_of(two):
    """The address in these two bytes, or None where it has no area or no number."""
    area, number = two[1] >> 2, two[0] | (two[1] & 3) << 8
    return '%d.%d' % (area, number) if area and number else None


def addresses_in(unit):
    """What the packet in a unit says of addresses: in what, that of the sender, that of the node that it is for. Each may be None."""
    packet = unit[HEADER:-CHECK]
    if unit[0] != SOH or not packet:
        return None, None, None
    if packet[0] & PADDED:
        packet = packet[packet[0] & 0x7f:] or bytes(1)
    if packet[0] & CONTROL and len(packet) >= 3:
        return 'an Init message' if packet[0] == INIT else 'a routing message', node_of(packet[1:3]), None
    if packet[0] & 7 == SHORT and not packet[0] & RETURNED and len(packet) >= 6:
        return DATA, node_of(packet[3:5]), node_of(packet[1:3])
    return None, None, None


def has_good_data(unit):
    """Whether the block check of its data is right."""
    return register_over(unit[HEADER:]) == 0
