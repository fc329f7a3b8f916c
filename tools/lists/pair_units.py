"""The units of the lists in tools/lists/pairs by their names, which the lists say how to read. A name that is nowhere here is a ValueError."""
import re

from captures import with_check

# ---- units by name

UNITS = {
    'STRT': '0506c00000017595',
    'STACK': '0507c00000014855',
    'ACK0': '050100000001fc55',
    'ACK1': '050100010001ad95',
    'ACK2': '0501000200015d95',
    'ACK44': '0501002c00013d9c',
    'ACK250': '050100fa0001dc64',
    'NAK1': '050201000001b9a9',
    'NAK2': '050202000001b9ed',
    'NAK3': '050203000001b811',
    'NAK8': '050208000001ba35',
    'NAK9': '050209000001bbc9',
    'NAK16': '050210000001bc95',
    'NAK17': '050211000001bd69',
    'NAK1R1': '050201010001e869',
    'NAK2R1': '050202010001e82d',
    'NAK3R1': '050203010001e9d1',
    'NAK3R44': '0502032c000179d8',
    'NAK3R254': '050203fe0001d9e1',
    'NAK8R1': '050208010001ebf5',
    'NAK9R1': '050209010001ea09',
    'REP0': '0503000000018595',
    'REP1': '0503000001018405',
    'REP2': '05030000020184f5',
    'REP44': '050300002c019955',
    'DATA1': '810100000101e38105c003',
    'DATA2': '810100000201e37105c003',
    'DATA3': '810100000301e2e105c003',
    'DATA0R1': '810100010001b3d105c003',
    'DATA1R1': '810100010101b24105c003',
    'DATA2R1': '810100010201b2b105c003',
    'OTHER0': '810100000001e2110741c2',
    'OTHER1': '810100000101e3810741c2',
    'OTHER1R1': '810100010101b2410741c2',
    'BAD_HEADER': '0506c00000017594',
    'BAD_DATA1': '810100000101e38105c083',
    'MALFORMED': '900000000001dc90',
}

# the routing header of what side a sends, and of what side b sends
FROM_A, FROM_B = '020204010400', '020104020400'

# The routing header of a packet from the one node to the other; with `!` it is returned. After a comma comes another first byte, or with `f`
# what the count of nodes passed is.
HEADERS = {
    '1>1': '020104010400',
    '1>2!': '120204010400',
    '1>2,0a': '0a0204010400',
    '1>2,22': '220204010400',
    '1>2,42': '420204010400',
    '1>2,6a': '6a0204010400',
    '1>2,f1': '020204010401',
    '1>3': '020304010400',
    '1>3!': '120304010400',
    '3>1': '020104030400',
    '3>2': '020204030400',
}

# packets without a message: a routing control packet, and one that can't be read
PACKETS = {'CONTROL': '05', 'PADDED': '80'}

# a message: flag byte, DSTADDR, SRCADDR, and what comes after them; `UNREAD` has a flag byte of no message
MESSAGES = {
    'UNREAD': 'ff',
    'NOP': '08',
    'CI0': '180000000001020002',
    'CI1': '180000010001020002',
    'CI1/1': '180000010001020100',
    'CI1,s0d': '18000001000d020002',
    'CI1,i00': '180000010001000002',
    'CI1,u78': '18000001000102000278',
    'CI2': '180000020001020002',
    'CI3': '180000030001020002',
    'CI4': '180000040001020002',
    'CI7': '180000070001020002',
    'RCI1': '680000010001020002',
    'CA0': '240000',
    'CA1': '240100',
    'CA2': '240200',
    'CA3': '240300',
    'CA7': '240700',
    'CC1>2': '280200010001020002',
    'CC1>3': '280300010001020002',
    'CC1>4': '280400010001020002',
    'CC0>1': '280100000001020002',
    'CC2>1': '280100020001020002',
    'CC2>1/0': '280100020001020000',
    'CC2>1/1': '280100020001020100',
    'CC2>1,s0d': '28010002000d020002',
    'CC2>1,i00': '280100020001000002',
    'CC2>1,u78': '28010002000102000278',
    'CC2>3': '280300020001020002',
    'CC3>2': '280200030001020002',
    'CC3>1': '280100030001020002',
    'CC4>3': '280300040001020002',
    'DI1>2': '38020001000000',
    'DI0>1': '38010000000000',
    'DI2>1': '38010002000000',
    'DI2>1,r0900': '38010002000900',
    'DI2>1,u78': '3801000200000078',
    'DI2>3': '38030002000000',
    'DI4>1': '38010004000000',
    'DC0>1': '48010000002a00',
    'DC1>0': '48000001002a00',
    'DC1>2': '48020001002a00',
    'DC1>9': '48090001002a00',
    'DC2>1': '48010002002a00',
    'DC2>1,r0900': '48010002000900',
    'DC2>3': '48030002002a00',
    'DC2>9': '48090002002a00',
    'DC3>2': '48020003002a00',
    'DC4>1': '48010004002a00',
    'LS1>2': '1002000100',
    'LS1>2,a1': '10020001000180',
    'LS1>4': '1004000100',
    'LS1>9': '1009000100',
    'LS3>4': '1004000300',
    'LS2>1': '1001000200',
    'LS2>1,a1': '10010002000180',
    'LS2>3': '1003000200',
    'LS3>2': '1002000300',
    'INT1>2': '3002000100',
    'INT1>2,a1': '30020001000180',
    'INT1>4': '3004000100',
    'INT2>1': '3001000200',
    'INT2>1,a1': '30010002000180',
    'OTHER1>2': '1402000100',
    'OTHER1>2,a1': '14020001000180',
    'OTHER1>4': '1404000100',
    'OTHER2>1': '1401000200',
    'OTHER2>1,a1': '14010002000180',
    'DACK1>2,a0': '04020001000080',
    'DACK1>2,a0,a1': '040200010000800180',
    'DACK1>2,a1': '04020001000180',
    'DACK1>2,a2': '04020001000280',
    'DACK1>2,n0': '04020001000090',
    'DACK1>2,n1': '04020001000190',
    'DACK1>2,x1': '040200010001a0',
    'DACK1>2,y1': '040200010001b0',
    'DACK2>1,a0': '04010002000080',
    'DACK2>1,a0,a1': '040100020000800180',
    'DACK2>1,a1': '04010002000180',
    'DACK2>1,a1,a0': '040100020001800080',
    'DACK2>1,a1,a1': '040100020001800180',
    'DACK2>1,a2': '04010002000280',
    'DACK2>1,a2047': '0401000200ff87',
    'DACK2>1,a2047,n4095': '0401000200ff87ff9f',
    'DACK2>1,a2048': '04010002000088',
    'DACK2>1,a4094': '0401000200fe8f',
    'DACK2>1,a4095': '0401000200ff8f',
    'DACK2>1,n1': '04010002000190',
    'DACK2>1,x1': '040100020001a0',
    'DACK2>1,y1': '040100020001b0',
    'DACK4>1,a0': '04010004000080',
    'SEG1>2#0=05': '6002000100000005',
    'SEG1>2#1=-': '60020001000100',
    'SEG1>2#1=05': '6002000100010005',
    'SEG1>2#1=05,b12': '6002000100011005',
    'SEG1>2#1=0506': '600200010001000506',
    'SEG1>2#1=06': '6002000100010006',
    'SEG1>2#2=05': '6002000100020005',
    'SEG1>2#2=0506': '600200010002000506',
    'SEG1>2#2=06': '6002000100020006',
    'SEG1>2,a0#1=05': '60020001000080010005',
    'SEG1>2,a0#1=06': '60020001000080010006',
    'SEG1>2,a0#2=05': '60020001000080020005',
    'SEG1>2,a0#2=06': '60020001000080020006',
    'SEG1>2,a0,a1#1=05': '600200010000800180010005',
    'SEG1>2,a1#1=05': '60020001000180010005',
    'SEG1>2,a1#1=06': '60020001000180010006',
    'SEG1>2,a1#2=05': '60020001000180020005',
    'SEG1>2,a1#2=06': '60020001000180020006',
    'SEG1>2,a1,a0#1=05': '600200010001800080010005',
    'SEG1>2,a4095#2=05': '6002000100ff8f020005',
    'SEG1>2,n1#1=05': '60020001000190010005',
    'SEG1>4#1=05': '6004000100010005',
    'SEG3>4#1=05': '6004000300010005',
    'SEG2>1#1=05': '6001000200010005',
    'SEG2>1#1=0506': '600100020001000506',
    'SEG2>1,a0#1=05': '60010002000080010005',
    'SEG2>1,a0#2=05': '60010002000080020005',
    'SEG2>1,a0#2=06': '60010002000080020006',
    'SEG2>1,a1#1=05': '60010002000180010005',
    'SEG2>1,a1,a0#1=05': '600100020001800080010005',
    'SEG2>1,a1,a0#2=05': '600100020001800080020005',
    'SEG2>1,a2#1=05': '60010002000280010005',
    'SEG2>1,a2049#1=05': '60010002000188010005',
    'SEG2>1,a4094#1=05': '6001000200fe8f010005',
    'BEG1>2#1=-': '20020001000100',
    'BEG1>2#1=05': '2002000100010005',
    'MID1>2#0=05': '0002000100000005',
    'MID1>2#1=05': '0002000100010005',
    'MID1>2#1=06': '0002000100010006',
    'MID1>2#2048=05': '0002000100000805',
    'MID1>2#2048=0505': '000200010000080505',
    'MID1>2#2048=06': '0002000100000806',
    'MID1>2#4095=05': '0002000100ff0f05',
    'MID1>2,a1#2048=05': '00020001000180000805',
    'END1>2#1=05': '4002000100010005',
}

DIGITS = re.compile('-|([0-9a-f]{2})+')
FLAGGED = re.compile('(.+):(00|40|80|c0)')
DATA = re.compile(r'DATA(\d+)(?:R(\d+))?\.(.+)')


def known(names, name):
    if name not in names:
        raise ValueError('what is %r?' % name)
    return names[name]


def data_of(num, resp, packet):
    """The data unit with this packet; its numbers are those of the line."""
    packet = bytes.fromhex(packet)
    return (with_check(bytes([0x81, len(packet), 0, resp, num, 1])) + with_check(packet)).hex()


def with_flags(unit, flags):
    """The unit with these flags, QSYNC and SELECT."""
    unit = bytes.fromhex(unit)
    return (with_check(unit[:2] + bytes([unit[2] & 0x3f | flags]) + unit[3:6]) + unit[8:]).hex()


def unit_of(name, header):
    """The unit with this name. Its packet has that header where the name gives none."""
    flagged = FLAGGED.fullmatch(name)
    if flagged:
        return with_flags(unit_of(flagged[1], header), int(flagged[2], 16))
    if name in UNITS:
        return UNITS[name]
    if DIGITS.fullmatch(name):
        return name
    data = DATA.fullmatch(name)
    if data is None:
        raise ValueError('what unit is %r?' % name)
    num, resp, packet = data.groups()
    return data_of(int(num), int(resp or 0), packet_of(packet, header))


def packet_of(name, header):
    """The packet with this name, likewise; of digits these bytes."""
    message, _, nodes = name.partition('@')
    if nodes:
        header = known(HEADERS, nodes)
    elif message in PACKETS:
        return PACKETS[message]
    elif DIGITS.fullmatch(message):
        return message
    return header + known(MESSAGES, message)
