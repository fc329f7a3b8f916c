"""Pairs of parts that nobody chose: random runs of two nodes (LineNode, and tools/tests/near_pairs.py), both captures cut at random places at both
ends, most of them with one fault. `cut_pairs(seed)` is some of one run, each with the texts of both captures and whether it is right: of a run that
the second reading accepts, and without a fault. A part of tools/tests/test_part_reading."""
import random

from captures import with_check
from reading.judging import RULES, judged
from tests.near_pairs import run_of
from tests.nodes import small_sessions as at
from tests.nodes.small_node import Node
from tests.cut_faults import spoilt

CUTS = 8  # of a run
RECEIPTS = 'r', 'k', 'd'
HEADS = {'a': '1.1 1.2', 'b': '1.2 1.1'}

# what a node does in the place of hearing and sending, and how often
DEEDS = (('hands_in', 8), ('goes_on', 0.3), ('says_ack', 3), ('says_free_nak', 2), ('hears_noise', 2), ('asks', 4), ('restarts', 0.7),
         ('boots', 0.2))
DEED = 0.15  # how often it does one of these


class LineNode(Node):
    """A node with packets that no link has, which also says what nobody asked for."""

    def hands_in(self):
        self.hellos += self.chance.randrange(1, 20)

    def goes_on(self):
        """It fills its window."""
        self.hellos += 300
        at.send_all(self)

    def says_ack(self):
        if self.state == 'RUNNING':
            self.say_ack()

    def says_free_nak(self):
        if self.state == 'RUNNING':
            self.say_nak(self.chance.choice((9, 16, 17)))

    def hears_noise(self):
        self.lines.append('n -')
        if self.state == 'RUNNING':
            self.come_damaged(1)

    def asks(self):
        self.timer()

    def restarts(self):
        if self.state != 'HALTED':
            self.halt()
        self.start()

    def boots(self):
        self.lines.append('u boot')
        self.state = 'HALTED'
        self.start()


def line_run(chance):
    """The records of both sides in a random run of the line alone."""
    nodes = {side: LineNode(side, chance) for side in 'ab'}
    loss = chance.choice((0.0, 0.03, 0.1))
    for node in nodes.values():
        node.lack = chance.choice((0.0, 0.1))
        node.hellos = chance.choice((0, 5, 200))
        node.start()
    names, weights = zip(*DEEDS)
    for _ in range(chance.choice((30, 100, 300, 1200))):
        if chance.random() < DEED:
            getattr(nodes[chance.choice('ab')], chance.choices(names, weights)[0])()
        else:
            at.step(nodes, chance, loss)
    return {side: node.lines[1:] for side, node in nodes.items()}


def records_of_run(chance):
    """The records of both sides in a run of any kind."""
    if chance.random() < 0.7:
        return line_run(chance)
    return {side: node.text().splitlines()[1:] for side, node in run_of(chance).items()}


# ---- where they are cut

def places(chance, lengths):
    """For each side the record with which its capture begins, and the one behind its end: about one time for both, anywhere, or one side nearly
    after the other."""
    kind = chance.choices(('one time', 'anywhere', 'one after the other'), (45, 35, 20))[0]
    if kind == 'anywhere':
        return [sorted((chance.randint(0, length), chance.randint(0, length))) for length in lengths]
    if kind == 'one time':
        times = sorted((chance.random(), chance.random()))
        return [sorted(max(0, min(length, int((time + chance.choice((0, 0, .03, -.03, .08))) * length))) for time in times) for length in lengths]
    time, early = chance.random(), chance.random()
    ends = [[int(time * lengths[0] * early), int(time * lengths[0])], [int(time * lengths[1]), lengths[1]]]
    return ends if chance.random() < 0.5 else [[int(time * lengths[0]), lengths[0]], [int(time * lengths[1] * early), int(time * lengths[1])]]


def piece_of(records, gone):
    """These records, as a part has them whose other capture begins behind so many units."""
    piece = []
    for record in records:
        words = record.split(' ')
        if words[0] in RECEIPTS:
            words[1] = '-' if int(words[1]) < gone else str(int(words[1]) - gone)
        piece.append(' '.join(words))
    return piece


def pieces_of(chance, runs):
    """The records of both captures. A side that begins before its first unit may be whole: the other is then one that names no unit of before."""
    (begin, end), (other_begin, other_end) = places(chance, [len(runs['a']), len(runs['b'])])
    if chance.random() < 0.1:
        begin = other_begin = 0
    gone = {'a': sent_in(runs['b'][:other_begin]), 'b': sent_in(runs['a'][:begin])}
    return {'a': piece_of(runs['a'][begin:end], gone['a']), 'b': piece_of(runs['b'][other_begin:other_end], gone['b'])}, begin + other_begin == 0


def sent_in(records):
    return sum(record.startswith('s ') for record in records)


def names_before(records):
    """Whether a fault has made a receipt one of a unit of before, which no whole capture can say."""
    return any(record.split(' ')[0] in RECEIPTS and record.split(' ')[1] == '-' for record in records)


def texts_of(pieces, whole):
    """The texts of both captures: of a whole one in format 3."""
    heads = {side: 'ddcap 3 %s' % HEADS[side] if side == whole else 'ddcap 4 %s part' % HEADS[side] for side in 'ab'}
    return ['\n'.join([heads[side], *pieces[side]]) + '\n' for side in 'ab']


def turned(chance, runs):
    """The same run with other numbers of data: so many more in each direction. Only where no start is left in what is cut out can it be one."""
    more = {side: chance.randrange(256) for side in 'ab'}
    return {side: [turned_record(record, more[side], more['ba'['ab'.index(side)]]) for record in records] for side, records in runs.items()}


def turned_record(record, own, other):
    """A record with this added to the numbers of what the side sends, and to those of the other."""
    verb, *words = record.split(' ')
    if verb in ('s', *RECEIPTS):
        own, other = (own, other) if verb == 's' else (other, own)
        words[-1] = turned_unit(words[-1], own, other)
    return ' '.join([verb, *words])


def turned_unit(digits, own, other):
    """A unit with this added to NUM and to RESP, and with right checks where it had these."""
    unit = bytes.fromhex(digits.replace('-', ''))
    if len(unit) < 8 or with_check(unit[:6]) != unit[:8] or unit[0] not in (5, 0x81):
        return digits
    has_num, has_resp = unit[0] == 0x81 or unit[1] == 3, unit[0] == 0x81 or unit[1] in (1, 2)
    resp, num = (unit[3] + other * has_resp) % 256, (unit[4] + own * has_num) % 256
    return (with_check(unit[:3] + bytes([resp, num, unit[5]])) + unit[8:]).hex()


def cut_pairs(seed):
    """Some pairs of a run: the texts of both captures, and whether they are right."""
    chance = random.Random('parts %d' % seed)
    runs = records_of_run(chance)
    is_run = judged(RULES, *('ddcap 3 %s\n%s' % (HEADS[side], '\n'.join([*runs[side], ''])) for side in 'ab'), line=True).startswith('accepted')
    for _ in range(CUTS):
        pieces, is_first = pieces_of(chance, runs)
        if is_of_one_period(pieces) and not is_first and chance.random() < 0.5:
            pieces = turned(chance, pieces)
        has_fault = chance.random() < 0.6
        if has_fault:
            spoilt(chance, pieces)
        whole = chance.choice('ab') if is_first and chance.random() < 0.7 else None
        whole = None if whole and names_before(pieces[whole]) else whole
        yield texts_of(pieces, whole), is_run and not has_fault


def is_of_one_period(pieces):
    """Whether no start, and no unit of one, is in these records."""
    records = [record for piece in pieces.values() for record in piece]
    return not any(record in ('u start', 'u boot') or record.split(' ')[-1].startswith(('0506', '0507')) for record in records)
