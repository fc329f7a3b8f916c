"""Numbers beyond one window and beyond 4,095 on the links, many segments, the longest message, and windows alone. What is wanted is told here, since
of so many segments the second reading is slow. A part of tools/tests/test_machines."""
import random

from tests.machines.calls import optional
from tests.machines.links import NODES, two_links_in_run

TAG = 'tag Some(0) Some(0)'
FROM_A, FROM_B = b'\2\0\1\0', b'\1\0\2\0'


def word_of(number, bits=0):
    return (number % 4096 | bits).to_bytes(2, 'little')


class LongRow:
    """A row of many segments between link 1 of a and link 2 of b, which are in RUN."""

    def __init__(self, calls, name):
        self.calls, self.name = calls, name
        two_links_in_run(calls, name)

    def says(self, node, message, wanted=TAG):
        nodes = (NODES['a'], NODES['b']) if node == 'a' else (NODES['b'], NODES['a'])
        self.calls.call('%s sent %d %d %s' % (node, *nodes, message.hex()), wanted, self.name)

    def hears(self, node, message, wanted='made'):
        nodes = (NODES['b'], NODES['a']) if node == 'a' else (NODES['a'], NODES['b'])
        self.calls.call('%s arrived %d %d 0 0 %s' % (node, *nodes, message.hex()), wanted, self.name)

    def user(self, words, wanted='made'):
        self.calls.call(words, wanted, self.name)

    def reaches(self, given, acknowledged, last, received):
        """So many segments come to a and are delivered, of which it acknowledges those through the last; and it gives so many."""
        for number in range(1, received + 1):
            self.hears('a', segment(FROM_B, number))
            self.user('a up 1 05')
            if number == last or number < last and number % 1000 == 0:
                self.says('a', ack(FROM_A, number))
        for number in range(1, given + 1):
            self.user('a in 1 05')
            self.says('a', segment(FROM_A, number))
            if number % 1000 == 0 or number == given:
                self.hears('a', ack(FROM_B, min(number, acknowledged)))
        self.user('a in 1 05')
        self.user('a in 1 05')


def segment(ends, number, words=(), data=b'\5', flag=0x60):
    return bytes([flag]) + ends + b''.join(word_of(word, 0x8000) for word in words) + word_of(number) + data


def ack(ends, number):
    return b'\4' + ends + word_of(number, 0x8000)


# What is given, acknowledged, last acknowledged here and received at a; the words and the number of a segment that it sends then, and the answer.
SENT = [
    ('number 4,096', (4095, 2049, 0, 0), (), 4096, TAG),
    ('window full', (4096, 2049, 0, 0), (), 4097, 'LinkWindowFull'),
    ('one fewer', (4096, 2050, 0, 0), (), 4097, TAG),
    ('4,096 again', (4096, 2049, 0, 0), (), 4096, TAG),
    ('4,095 again', (4096, 2049, 0, 0), (), 4095, TAG),
    ('the lowest', (3000, 3000, 0, 0), (), 954, TAG),
    ('below the lowest', (3000, 3000, 0, 0), (), 953, 'WrongSegment'),
    ('first of 2,047', (2047, 2047, 0, 0), (), 1, TAG),
    ('none of 2,047', (2047, 2047, 0, 0), (), 0, 'WrongSegment'),
    ('none of 2,046', (2046, 2046, 0, 0), (), 0, 'WrongSegment'),
    ('below zero', (2046, 2046, 0, 0), (), 4095, 'WrongSegment'),
    ('over the wrap', (4100, 4100, 0, 0), (), 4090, TAG),
    ('at the wrap', (4096, 4096, 0, 0), (), 4095, TAG),
    ('a word in a new one', (4096, 2049, 0, 0), (1,), 4097, 'WrongAck'),
    ('the lowest word', (1, 0, 5000, 5000), (2953,), 1, TAG),
    ('a word below it', (1, 0, 5000, 5000), (2952,), 1, 'WrongAck'),
    ('word 0 of 2,047', (1, 0, 2047, 2047), (0,), 1, TAG),
    ('word 0 of 2,048', (1, 0, 2048, 2048), (0,), 1, 'WrongAck'),
    ('a word below zero', (1, 0, 2046, 2046), (4095,), 1, 'WrongAck'),
    ('two words', (1, 0, 4090, 4100), (4100, 4099), 1, TAG),
    ('a word beyond', (1, 0, 4090, 4100), (4101,), 1, 'WrongAck'),
    ('a word over the wrap', (1, 0, 4100, 4100), (4095,), 1, TAG),
    ('a word at the wrap', (1, 0, 4096, 4100), (4095,), 1, TAG),
]

# Of 4,100 given, 4,090 are acknowledged, and a word comes: through which number all are acknowledged then.
CAME = [(4099, 4099), (4100, 4100), (4101, 4090), (4089, 4090)]

# 4,090 are received. One segment comes, and then those from 4,091 through another: the highest that may be acknowledged.
SEGMENTS = [
    ('the next', 4091, 4090, 4091),
    ('held across the wrap', 4096, 4090, 4090),
    ('received over the wrap', 4096, 4095, 4096),
    ('2,047 ahead', 6137, 6136, 6137),
    ('2,048 ahead counts as received', 6138, 6137, 6137),
    ('received', 4090, 4091, 4091),
    ('received before', 4089, 4090, 4090),
    ('2,048 below', 2042, 4090, 4090),
]


def add_numbers(calls):
    for name, numbers, words, number, wanted in SENT:
        row = LongRow(calls, name)
        row.reaches(*numbers)
        row.says('a', segment(FROM_A, number, words), wanted)
    row = LongRow(calls, 'window before length')
    row.reaches(2047, 0, 0, 0)
    row.says('a', segment(FROM_A, 2048, data=b'\5\5\5'), 'LinkWindowFull')
    row.hears('a', ack(FROM_B, 1))
    row.says('a', segment(FROM_A, 2048, data=b'\5\5\5'), 'SegmentTooLong')
    for word, through in CAME:
        row = LongRow(calls, 'word %d comes' % word)
        row.reaches(4100, 4090, 0, 0)
        row.hears('a', ack(FROM_B, word))
        for number in range(4091, 4101):
            row.says('a', segment(FROM_A, number, data=b'other', flag=0), TAG if number <= through else 'WrongSegment')
    for name, first, through, highest in SEGMENTS:
        segments_come(LongRow(calls, 'comes: ' + name), first, through, highest)


def segments_come(row, first, through, highest):
    row.reaches(1, 0, 4090, 4090)
    for number in [first] + list(range(4091, through + 1)):
        row.hears('a', segment(FROM_B, number))
    row.says('a', ack(FROM_A, highest + 1), 'WrongAck')
    row.says('a', ack(FROM_A, highest))
    for _ in range(4090, highest):
        row.user('a up 1 05')
    row.user('a up 1 05', 'WrongDelivery')


def add_many(calls):
    """Five thousand messages, one of each thousand of which is lost and sent again; segments in any order; and the longest message."""
    row = LongRow(calls, 'five thousand messages')
    for first in range(1, 5001, 1000):
        for number in range(first, first + 1000):
            row.user('a in 1 05')
            row.says('a', segment(FROM_A, number))
            if number != first + 499:
                row.hears('b', segment(FROM_A, number))
        row.says('b', ack(FROM_B, first + 999), 'WrongAck')
        row.says('a', segment(FROM_A, first + 499))
        row.hears('b', segment(FROM_A, first + 499))
        row.says('b', ack(FROM_B, first + 999))
        row.hears('a', ack(FROM_B, first + 999))
    for _ in range(5000):
        row.user('b up 2 05')
    row.user('b up 2 05', 'WrongDelivery')
    add_ranges(calls)
    any_order(LongRow(calls, 'segments in any order'))
    row, longest = LongRow(calls, 'the longest message and an empty one'), 'a5' * 65535
    row.hears('b', segment(FROM_A, 1, data=bytes.fromhex(longest)))
    row.hears('b', segment(FROM_A, 2, data=b''))
    for data, wanted in ('-', 'WrongDelivery'), (longest[2:], 'WrongDelivery'), (longest, 'made'), ('-', 'made'), ('-', 'WrongDelivery'):
        row.user('b up 2 ' + data, wanted)


def add_ranges(calls):
    """Which events are in range: addresses from 1 on, and messages of up to 65,535 bytes."""
    for verb in 'accept', 'reject':
        for partner, link in (1, 65535), (1, 0), (0, 1):
            calls.call('range %s %d %d' % (verb, partner, link), 'Some(%s)' % str(bool(partner and link)).lower(), 'events in range')
    for verb in 'open', 'close':
        for link in 0, 1, 65535:
            calls.call('range %s %d' % (verb, link), 'Some(%s)' % str(bool(link)).lower(), 'events in range')
    for verb in 'in', 'up':
        for link, count in (1, 65535), (1, 65536), (0, 0):
            line = 'range %s %d %s' % (verb, link, '00' * count or '-')
            calls.call(line, 'Some(%s)' % str(bool(link and count < 65536)).lower(), 'events in range')


def any_order(row):
    """Segments come in any order, twice, and from 2,047 behind: b may acknowledge just what a set of true numbers says."""
    numbers, came, received = random.Random(1), set(), 0
    for _ in range(30000):
        number = received + 1 if numbers.randrange(4) == 0 else max(1, received + numbers.randrange(-2047, 2048))
        came.add(number)
        row.hears('b', segment(FROM_A, number))
        while received + 1 in came:
            received += 1
        row.says('b', ack(FROM_B, received + 1), 'WrongAck')
        row.says('b', ack(FROM_B, received))
    for _ in range(received):
        row.user('b up 2 05')
    row.user('b up 2 05', 'WrongDelivery')


# ---- windows

def add_window(calls, modulus, capacity):
    """A window of numbers beside a list: two below the modulus on, full, and a hundred thousand items with numbers that do not wrap."""
    window = Window(calls, modulus, 'across the wrap')
    window.new(capacity, modulus - 2)
    for item in range(4):
        window.push(item)
    window.release(3)
    window.amend(0, 30)
    window.new(capacity, 2)
    for item in range(capacity + 1):
        window.push(item)
    window.restart(modulus + 3)
    window.restart(3)
    window.row = 'numbers that do not wrap'
    window.new(capacity, 0)
    for number in range(100000):
        window.release(min(len(window.items), 1 + number % 300 if len(window.items) == capacity else number % 2))
        window.push(number)


class Window:
    def __init__(self, calls, modulus, row):
        self.calls, self.modulus, self.row = calls, modulus, row

    def new(self, capacity, first):
        self.capacity, self.first, self.items = capacity, first, []
        self.call('new %d %d' % (capacity, first))

    def push(self, item):
        is_full = len(self.items) == self.capacity
        self.items += [] if is_full else [item]
        self.call('push %d' % item, 'full' if is_full else 'made')

    def release(self, count):
        del self.items[:count]
        self.first = (self.first + count) % self.modulus
        self.call('release %d' % count)

    def amend(self, index, item):
        self.items[index] = item
        self.call('amend %d %d' % (index, item))

    def restart(self, first):
        self.first, self.items = first % self.modulus, []
        self.call('restart %d' % first)

    def call(self, line, done='made'):
        ends = [optional(item) for item in ((self.items[0], self.items[-1]) if self.items else (None, None))]
        self.calls.call(line, '%s %d %d %d %s' % (done, self.first, len(self.items), self.capacity, ' '.join(ends)), self.row)
