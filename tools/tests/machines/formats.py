"""What bytes are read as: besides the rows of tools/lists/machines.txt many more, which are worked out by the second reading of
tools/reading/packets.py. A part of tools/tests/test_machines."""
from captures import with_check
from reading.packets import DATA_BAD, HEADER_BAD, MALFORMED, read_nsp, read_packet, read_unit
from tests.machines.calls import digits

REASONS = {1: 'HeaderCheck', 2: 'DataCheck', 3: 'RepResponse', 8: 'NoBuffer', 9: 'Overrun', 16: 'MessageTooLong', 17: 'HeaderFormat'}
QUALIFIERS = 'Ack', 'Nak', 'OtherAck', 'OtherNak'

# a unit of each kind, packets, and a message of each kind, with acknowledgement words in one place and in two
UNITS = [with_check(bytes(header)) for header in (
    [5, 6, 0xc0, 0, 0, 1], [5, 7, 0xc0, 0, 0, 1], [5, 1, 0, 7, 0, 1], [5, 3, 0, 0, 9, 1], [5, 2, 8, 255, 0, 1], [0x90, 0, 0, 0, 0, 1])]
DATA = with_check(bytes([0x81, 3, 0, 1, 2, 1])) + with_check(b'\5\6\7')
PACKETS = ['020204010400180000010001020002', '7a020401040008', '0afffe00fdfc', '120204010400', '05', '07ff80']
MESSAGES = [bytes.fromhex(message) for message in (
    '180000010001020002', '68000001000102000275', '280200010001020002', '00020001000500', '200200010003800500', '4002000100038004b0050061',
    '600200010000106162', '1002000100', '3002000100070809', '04020001002391', '0402000100239100a0', '14020001000080', '240200', '380200010007000102',
    '48020001002900', '08', '0802')]


def record(name, **fields):
    """A value as the program prints it."""
    return '%s { %s }' % (name, ', '.join('%s: %s' % field for field in fields.items()))


def told(value):
    """A field as the program prints it."""
    if isinstance(value, bool):
        return str(value).lower()
    return str(list(value)) if isinstance(value, bytes) else str(value)


def unit_told(data):
    """What the program answers of a unit; its faults in the format have names that the second reading does not tell apart."""
    unit = read_unit(data.hex())
    if unit in (HEADER_BAD, DATA_BAD):
        return 'HeaderBad' if unit == HEADER_BAD else 'DataBad'
    if unit == MALFORMED:
        return None
    flags = record('Flags', quick_sync=told(unit.flags & 0x40 != 0), select=told(unit.flags & 0x80 != 0))
    fields = {
        'data': ('Data', {'resp': unit.resp, 'num': unit.num, 'body': told(unit.packet or b'')}),
        'ACK': ('Ack', {'resp': unit.resp}),
        'NAK': ('Nak', {'reason': REASONS.get(unit.reason), 'resp': unit.resp}),
        'REP': ('Rep', {'num': unit.num}),
        'STRT': ('Strt', {}),
        'STACK': ('Stack', {}),
    }
    name, others = fields[unit.kind]
    return record(name, flags=flags, **others) + ' written as read'


def packet_told(data):
    """What the program answers of a packet, or None where it can't be read."""
    packet = read_packet(data)
    if packet is None:
        return None
    if packet.nsp is None:
        return 'Control(%s) returned false written as read' % told(data)
    fields = {'rtflg': packet.flags, 'dst': packet.destination, 'src': packet.source, 'forward': packet.forward, 'nsp': told(packet.nsp)}
    return '%s returned %s written as read' % (record('Data', **fields), told(packet.returned))


def words_told(words):
    return '[%s]' % ', '.join(record('AckWord', qualifier=QUALIFIERS[word >> 12 & 3], number=word & 0xfff) for word in words)


def message_fields(message):
    """The name of a message of each kind, that of its record, and its fields."""
    ends = {'dstaddr': message.destination, 'srcaddr': message.source}
    rest = {'rest': told(message.rest)}
    connect = {'services': told(ord(message.services or b'\0')), 'info': told(ord(message.info or b'\0')), 'segsize': message.segsize,
               'user_data': told(message.rest)}
    bits = {'begins': told(message.flag & 0x20 != 0), 'ends': told(message.flag & 0x40 != 0)}
    numbers = {'acks': words_told(message.words), 'number': message.segnum, 'bit_12': told(message.bit_12), 'body': told(message.body)}
    service = {'interrupt': told(message.kind == 'interrupt'), **ends, **rest}
    return {
        'segment': ('DataSegment', 'Segment', {**bits, **ends, **numbers}),
        'link service': ('LinkService', 'LinkService', service),
        'interrupt': ('LinkService', 'LinkService', service),
        'data ack': ('DataAck', 'DataAck', {**ends, 'acks': words_told(message.words)}),
        'other-data ack': ('OtherDataAck', 'OtherDataAck', {**ends, **rest}),
        'connect ack': ('ConnectAck', 'ConnectAck', {'dstaddr': message.destination}),
        'no operation': ('NoOperation', 'NoOperation', rest),
        'CI': ('ConnectInitiate', 'ConnectInitiate', {'retransmitted': told(message.flag == 0x68), 'srcaddr': message.source, **connect}),
        'CC': ('ConnectConfirm', 'ConnectConfirm', {**ends, **connect}),
        'DI': ('DisconnectInitiate', 'DisconnectInitiate', {**ends, 'reason': message.reason, 'user_data': told(message.rest)}),
        'DC': ('DisconnectConfirm', 'DisconnectConfirm', {**ends, 'reason': message.reason}),
    }[message.kind]


def message_told(data):
    """What the program answers of a message, or None where it can't be read."""
    message = read_nsp(data)
    if message is None:
        return None
    name, of_record, fields = message_fields(message)
    return '%s(%s) written as read' % (name, record(of_record, **fields))


def changed(data, places):
    """The bytes with each other value in each of these places."""
    for place in places:
        for value in range(256):
            if value != data[place]:
                yield data[:place] + bytes([value]) + data[place + 1:]


def variants(data, places):
    """The bytes, cut at each place, with more after them, and with each other value of some bytes."""
    yield from (data[:length] for length in range(len(data) + 1))
    yield from (data + more for more in (b'\0', b'\0\x80', b'\xff'))
    yield from changed(data, places)


def add_formats(calls):
    """Adds each unit, packet and message with its cuts and changes. Where the second reading does not read it, the program must not either, and
    which fault it names is for the rows to say."""
    for unit in UNITS:
        for data in [unit] + [unit[:length] for length in range(8)] + [unit + b'\0'] + list(changed(unit, range(8))):
            add(calls, 'unit', data, unit_told(data), 'each change of a control unit')
        for place, value in [(place, value) for place in range(1, 6) for value in range(0, 256, 3)]:
            data = with_check(unit[:place] + bytes([value]) + unit[place + 1:6])
            add(calls, 'unit', data, unit_told(data), 'a control unit with another byte')
    for data in variants(DATA, range(len(DATA))):
        add(calls, 'unit', data, unit_told(data), 'each change of a data unit')
    for packet in PACKETS:
        for data in variants(bytes.fromhex(packet), [0]):
            add(calls, 'packet', data, packet_told(data), 'each first byte and cut of a packet')
    for message in MESSAGES:
        for data in variants(message, range(len(message))):
            add(calls, 'nsp', data, message_told(data), 'each change and cut of a message')


def add(calls, kind, data, wanted, row):
    calls.call('%s %s' % (kind, digits(data)), wanted, row)
