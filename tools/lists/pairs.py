"""The captures of the lists in tools/lists/pairs, which say how they are written: records by name, runs of segments, and the text of a side. A name
that is nowhere here is a ValueError."""
import re
from collections import namedtuple

from captures import ack_of
from lists.pair_units import FROM_A, FROM_B, data_of, known, packet_of, unit_of

# ---- runs of segments of one byte, more than a reader wants to see in a list

# Segments that side a gives on its link 1, and side b keeps, by the number of the first and of the last. NUM of the first is `num`, and that
# of each later one is one more; RESP of all is `resp`. After each number that 200 divides b sends an ACK of all packets so far, which comes
# to a. The first segment is a's unit number `unit`, and the first ACK is b's number `ack`.
Segments = namedtuple('Segments', 'first last num resp unit ack')

# `anew` is after a restart
RUNS = {
    '1 to 2047': Segments(1, 2047, num=2, resp=1, unit=2, ack=2),
    '2 to 2047': Segments(2, 2047, num=3, resp=2, unit=3, ack=3),
    '2 to 2048': Segments(2, 2048, num=3, resp=2, unit=3, ack=3),
    '2048 to 4094': Segments(2048, 4094, num=2049, resp=3, unit=2049, ack=14),
    '2 to 2047 anew': Segments(2, 2047, num=1, resp=0, unit=4, ack=3),
}


def num_of(run, number):
    """NUM of the packet with this segment."""
    return (number - run.first + run.num) % 256


def segment_of(run, number):
    """The unit with this segment. The first of all begins the message, and none ends it; each has the byte 05."""
    flag = '20' if number == 1 else '00'
    packet = FROM_A + flag + '02000100' + (number % 4096).to_bytes(2, 'little').hex() + '05'
    return data_of(num_of(run, number), run.resp, packet)


def given(run):
    """What side a does: it sends them, and the ACKs come."""
    lines, ack = [], run.ack
    for number in range(run.first, run.last + 1):
        lines.append('s ' + segment_of(run, number))
        if number % 200 == 0:
            lines.append('r %d %s' % (ack, ack_of(num_of(run, number))))
            ack += 1
    return lines


def kept(run):
    """What side b does: it keeps them, and sends the ACKs."""
    lines = []
    for number in range(run.first, run.last + 1):
        lines.append('k %d %s' % (number - run.first + run.unit, segment_of(run, number)))
        if number % 200 == 0:
            lines.append('s ' + ack_of(num_of(run, number)))
    return lines


# ---- records by name

# The records that a word stands for. Side a `started` and side b `answered`; a is `calling` from its link 1 and b is `called`; b is
# `confirming` at its link 2, where it has accepted, and a is `confirmed` and in RUN; a is `running`, where b is `reached` and in RUN too.
# A station is started `again`. Of a start whose first STRT is lost, `first start lost` is side a up to RUNNING, and `second start came` side b.
# Side a `sends 300 packets` and asks by a REP, and side b `lacks packet 255` of them, and answers by a NAK.
WORDS = {
    'started': 'u start; s STRT; r 0 STACK',
    'answered': 'u start; r 0 STRT; s STACK',
    'calling': 'u start; s STRT; r 0 STACK; u open 1; s DATA1.CI1',
    'called': 'u start; r 0 STRT; s STACK; k 1 DATA1.CI1',
    'confirming': 'u start; r 0 STRT; s STACK; k 1 DATA1.CI1; u accept 1 2; s DATA1R1.CC2>1',
    'confirmed': 'u start; s STRT; r 0 STACK; u open 1; s DATA1.CI1; k 1 DATA1R1.CC2>1',
    'running': 'u start; s STRT; r 0 STACK; u open 1; s DATA1.CI1; k 1 DATA1R1.CC2>1; s DATA2R1.LS1>2',
    'reached': 'u start; r 0 STRT; s STACK; k 1 DATA1.CI1; u accept 1 2; s DATA1R1.CC2>1; k 2 DATA2R1.LS1>2',
    'again': 'u halt; u start',
    'first start lost': 'u start; s STRT; s STRT; r 0 STACK; s ACK0',
    'second start came': 'u start; r 1 STRT; s STACK; r 2 ACK0',
    'sends 300 packets': 'u start; s STRT; r 0 STACK; s ACK0; packets 1 to 250; r 1 ACK250; packets 251 to 300; s REP44; r 2 NAK3R254',
    'lacks packet 255':
        'u start; r 0 STRT; s STACK; r 1 ACK0; k packets 1 to 250 from unit 2; s ACK250; k packets 251 to 254 from unit 252; '
        'r packets 256 to 300 from unit 257; r 302 REP44; s NAK3R254',
    'gives across 4096':
        'u in 1 5000 bytes; s DATA2R1.BEG1>2#1=05; k 2 DATA2R2.SEG2>1#1=05; gives 2 to 2047; k 13 DATA3R0.DACK2>1,a2047; gives 2048 to 4094; '
        'k 24 DATA4R255.DACK2>1,a4094; s DATA0R4.MID1>2#4095=05; s DATA1R4.MID1>2#0=05; s DATA2R4.MID1>2#1=05; k 25 DATA5R2.DACK2>1,a1',
    'keeps across 4096':
        'k 2 DATA2R1.BEG1>2#1=05; u in 2 05; s DATA2R2.SEG2>1#1=05; keeps 2 to 2047; s DATA3R0.DACK2>1,a2047; keeps 2048 to 4094; '
        's DATA4R255.DACK2>1,a4094; k 4096 DATA0R4.MID1>2#4095=05; k 4097 DATA1R4.MID1>2#0=05; k 4098 DATA2R4.MID1>2#1=05; s DATA5R2.DACK2>1,a1',
}

EVENT = re.compile(r'u (start|halt|boot|(open|close|abort) \d+|(accept|reject) \d+ \d+|(in|up|interrupt|interrupted) \d+ (-|([0-9a-f]{2})+))')
BEARER = re.compile(r'(s|n|[rkd] \d+) (\S+)')
COMPOSED = re.compile(r'x (\S+)|x (\d+) bytes')
NEAR = re.compile('[dx] |u (?:boot|abort|interrupt)')  # how the lines begin that format 3 alone has
DATA_RUN = re.compile(r'(?:([rk]) )?packets (\d+) to (\d+)(?: from unit (\d+))?')
ADDRESSES = re.compile(r'head (\d+\.\d+ \d+\.\d+)')

# A side: the addresses of its head where the list gives none, and the routing headers of what it sends and of what comes.
Side = namedtuple('Side', 'addresses sent coming')
SIDES = {'a': Side('1.1 1.2', FROM_A, FROM_B), 'b': Side('1.2 1.1', FROM_B, FROM_A)}


def data_lines(word, first, last, unit):
    """Data with these numbers that are sent, or that come as the peer's units from this one on: the packet of each is 05 and its number."""
    if (word is None) != (unit is None):
        raise ValueError('packets are sent, or come from a unit on')
    numbers = range(int(first), int(last) + 1)
    fronts = ['s'] * len(numbers) if word is None else ['%s %d' % (word, number - numbers.start + int(unit)) for number in numbers]
    return ['%s %s' % (front, data_of(number % 256, 0, '05%02x' % (number % 256))) for front, number in zip(fronts, numbers)]


def lines_of(side, record):
    """The line of a record, or those of a run."""
    verb, _, name = record.partition(' ')
    if verb == 'gives':
        return given(known(RUNS, name))
    if verb == 'keeps':
        return kept(known(RUNS, name))
    run = DATA_RUN.fullmatch(record)
    if run:
        return data_lines(*run.groups())
    if record == 'u in 1 5000 bytes':
        return ['u in 1 ' + 5000 * '05']
    if EVENT.fullmatch(record):
        return [record]
    composed = COMPOSED.fullmatch(record)
    if composed:
        name, count = composed.groups()
        return ['x ' + (packet_of(name, side.sent) if name else '05' * int(count))]
    bearer = BEARER.fullmatch(record)
    if bearer is None:
        raise ValueError('what record is %r?' % record)
    front, unit = bearer.groups()
    return [front + ' ' + unit_of(unit, side.sent if front == 's' else side.coming)]


def capture_of(letter, records):
    """The text of side a or b, in format 1 where that has all its lines, else in format 3. Its head has other addresses where the records begin with
    `head`."""
    side = SIDES[letter]
    words = records.split('; ') if records else []
    head = ADDRESSES.fullmatch(words[0]) if words else None
    named = words[1:] if head else words
    lines = [line for word in named for record in WORDS.get(word, word).split('; ') for line in lines_of(side, record)]
    form = 3 if any(NEAR.match(line) for line in lines) else 1
    return '\n'.join(['ddcap %d %s' % (form, head[1] if head else side.addresses), *lines]) + '\n'
