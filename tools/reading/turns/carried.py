"""What is carried and judged by nobody: flags of units, bits and fields of packets and messages. Each has a turn that judges it, in the rows
`flags` and `not judged`. tools/reading/turns/judging.turns and messages.turns
ask for them."""
from reading.packets import number
from reading.rows import Refused

BEGINS, ENDS = 0x20, 0x40  # bits of a segment's flag byte

# QSYNC and SELECT, as they mostly are; of other units they are mostly clear
FLAGS = {'STRT': 0xc0, 'STACK': 0xc0}

# the fields of messages that may be anything, each as it is in most of the lists
CARRIED = {
    'CI': {'SERVICES': ('services', b'\1'), 'INFO': ('info', b'\2'), 'user data': ('rest', b'')},
    'CC': {'SERVICES': ('services', b'\1'), 'INFO': ('info', b'\2'), 'user data': ('rest', b'')},
    'DI': {'REASON': ('reason', 0), 'user data': ('rest', b'')},
    'DC': {'REASON': ('reason', 42)},
}


# ---- units

def flags_sent(row, unit, first):
    """The flags of a unit that is sent, and those of its first sending, where it is sent again."""
    if unit.flags != FLAGS.get(unit.kind, 0) and row.turned(unit.kind + ' is sent'):
        raise Refused(1)
    if first is not None and first.flags != unit.flags and row.turned('data is sent again'):
        raise Refused(10)


def is_passed(row, unit):
    """Whether a unit that comes is passed over for its flags."""
    return unit.flags != FLAGS.get(unit.kind, 0) and row.turned(unit.kind + ' comes')


# ---- packets

def names_of(packet):
    """What is not as it mostly is in a packet's header, by name."""
    flags = ['RTFLG %02x' % packet.flags] if packet.flags != 2 and not packet.returned else []
    return flags + ['FORWARD'] * (packet.forward != 0)


def packet_sent(row, packet, nodes):
    """A packet with a message that is sent. Whether its message is read."""
    names = names_of(packet)
    if any([row.turned(name + ' refused') for name in names]) or nodes[0] == nodes[1] and row.turned('equal addresses in a head'):
        raise Refused(15)
    if packet.returned and (packet.source, packet.destination) != nodes and row.turned('the nodes of a returned packet that is sent'):
        raise Refused(16)
    return not any([row.turned(name + ' not read') for name in names])


def is_read(row, packet):
    """Whether the message in a packet that is kept is read."""
    if packet.returned:
        return row.turned('a returned packet is read where it comes')
    return not any([row.turned(name + ' not read where it comes') for name in names_of(packet)])


def returned_kept(row, packet, message, nodes):
    """A packet that is on its way back is kept; `nodes` are the other one and the own one."""
    if packet.returned and (packet.source, packet.destination) != nodes and row.turned('the nodes of a returned packet that comes'):
        raise Refused(16)
    if packet.returned and message is None and row.turned('a returned packet is refused where it cannot be read'):
        raise Refused(17)


# ---- messages

def differs(row, message, where):
    """Whether a field that may be anything is judged, `where` it is sent or comes."""
    fields = CARRIED.get(message.kind, {}).items()
    return any([getattr(message, field) != usual and row.turned('%s of a %s %s' % (name, message.kind, where)) for name, (field, usual) in fields])


def message_sent(row, message):
    """A message that is sent, as the row is turned."""
    if differs(row, message, 'that is sent') or message.bit_12 and row.turned('bit 12 is refused'):
        raise Refused(17)
    if message.bit_12 and row.turned('bit 12 goes on where it is sent'):
        return message._replace(flag=message.flag & ~ENDS)
    if message.bit_12 and row.turned('bit 12 counts'):
        return message._replace(segnum=message.segnum + 4096)
    return message


def message_coming(row, message):
    """A message that comes, as the row is turned, or None."""
    if differs(row, message, 'that comes'):
        return None
    if message.bit_12 and row.turned('bit 12 goes on where it comes'):
        return message._replace(flag=message.flag & ~ENDS)
    return message


def of_link_sent(row, link, message, place):
    """A message of a link that is sent; `place` is the number of a segment."""
    first = link.bits_12.setdefault(place, message.bit_12)
    if message.kind == 'segment' and first != message.bit_12 and row.turned('bit 12 of a repeat as at first'):
        raise Refused(20)
    link.interrupts += message.kind == 'interrupt'
    if message.kind == 'interrupt' and link.interrupts > 1 and row.turned('one interrupt at a time'):
        raise Refused(19)


def words_of_rest(message):
    """The acknowledgement word that the rest of a message may begin with, which nobody reads."""
    return [word for word in [number(message.rest[:2])] if word & 0x8000] if len(message.rest) >= 2 else []
