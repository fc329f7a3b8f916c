"""One station beside its second reading: random calls with fixed seeds, a full window, and numbers across the wrap. A part of
tools/tests/test_machines."""
import random

from captures import ack_of, nak_of, with_check
from reading.judging import NAMES, RULES
from reading.packets import DATA_BAD, HEADER_BAD, read_unit
from reading.rows import Refused
from reading.station import Station
from tests.machines.calls import digits, optional


def data_of(num, resp, body):
    return (with_check(bytes([0x81, len(body), 0, resp % 256, num % 256, 1])) + with_check(body)).hex()


def rep_of(num):
    return with_check(bytes([5, 3, 0, 0, num % 256, 1])).hex()


STRT, STACK = '0506c00000017595', '0507c00000014855'
STATES = {'HALTED': 'Halted', 'ISTRT': 'Istrt', 'ASTRT': 'Astrt', 'RUNNING': 'Running'}
REASONS = 1, 2, 3, 8, 9, 16, 17


class OneStation:
    """A station beside its second reading."""

    def __init__(self, calls, row, seed):
        self.calls, self.row, self.random = calls, row, random.Random(seed)
        self.reading = Station(RULES)
        self.answers = []
        calls.call('new', 'made Halted 0', row)

    def made(self, line, reading):
        """A call, with the second reading's answer as the one that is wanted."""
        try:
            answer = reading()
        except Refused as refusal:
            answer = NAMES[refusal.reason - 1]
        self.answers.append(answer.split()[0])
        self.calls.call(line, '%s %s %d' % (answer, STATES[self.reading.state], self.reading.period), self.row)

    def does(self, event):
        self.made(event, lambda: self.reading.user(event) or 'made')

    def sends(self, unit, label=None):
        """It sends this unit; a packet that is new gets the label."""
        self.made('sent %s %s' % ('-' if label is None else label, unit), lambda: self.sent(read_unit(unit), label))

    def sent(self, unit, label):
        reading = self.reading
        period, partner = reading.tag()
        is_new, noted = reading.sends(unit), None
        if unit.kind == 'data' and is_new:
            reading.labels[reading.next - 1] = label
        elif unit.kind == 'data':
            noted = reading.label_of_last()
        return 'sent %d %s %s %s' % (period, optional(partner), 'new' if is_new else 'none', optional(noted))

    def gets(self, unit, tag, kept):
        """This unit comes to it."""
        period, partner = tag
        words = 'kept' if kept else 'left', period, '-' if partner is None else partner, unit
        self.made('arrived %s %d %s %s' % words, lambda: self.got(read_unit(unit), tag, kept))

    def got(self, unit, tag, kept):
        is_bad = unit in (HEADER_BAD, DATA_BAD)
        is_taken = self.reading.gets(unit, None if is_bad else tag, kept)
        return 'packet %s' % digits(unit.packet) if is_taken else 'made'

    # -- random turns

    def turn(self):
        kind = self.random.randrange(40)
        if kind == 0 and self.random.randrange(6) == 0:
            self.does('halt')
        elif kind == 0:
            self.does('start')
        elif kind < 24:
            self.sends(self.any_unit(self.reading.received, self.reading.next, self.reading.given),
                       self.random.choice([None, self.random.randrange(100)]))
        else:
            self.gets(*self.any_arrival())

    def near(self, number):
        """This number, or now and then another."""
        return number if self.random.randrange(12) else number + self.random.randrange(-3, 4)

    def any_unit(self, resp, num, highest):
        """A unit that would be sent, with these numbers or others."""
        kind = self.random.randrange(16)
        body = bytes([5, num % 7]) if self.random.randrange(20) else b'\5'
        if kind < 10:
            return data_of(self.near(num), self.near(resp), body)
        if kind < 12:
            return ack_of(self.near(resp))
        if kind < 13:
            return nak_of(self.random.choice(REASONS), self.near(resp) % 256)
        return rep_of(self.near(highest)) if kind < 15 else self.random.choice([STRT, STACK])

    def any_arrival(self):
        """What comes, with its tag and whether it is kept."""
        reading, random_of = self.reading, self.random.randrange
        partner = reading.partner or 1
        tag = (partner, reading.period) if random_of(20) else self.random.choice([(partner, None), (partner + 1, reading.period), (1, 1)])
        if random_of(12) == 0:
            return self.random.choice(['0406c00000017595', '810100000101e38105c083']), tag, random_of(10) == 0
        if reading.state != 'RUNNING':
            unit = self.random.choice([STRT, STACK, STACK, ack_of(0), data_of(1, 0, b'\5')])
            return unit, (partner, None) if unit == STRT else tag, False
        behind = random_of(reading.given - reading.acknowledged + 1) if random_of(60) == 0 else 0
        resp = reading.acknowledged + behind
        unit = self.any_unit(resp, reading.received + 1, reading.received)
        unit = unit if unit != STRT or random_of(20) == 0 else ack_of(resp)
        is_next = read_unit(unit).kind == 'data' and read_unit(unit).num == (reading.received + 1) % 256
        return unit, tag, bool(is_next and random_of(8)) or random_of(40) == 0


def in_running(calls, row, seed=0):
    station = OneStation(calls, row, seed)
    station.does('start')
    station.gets(STACK, (1, 1), False)
    return station


def add_stations(calls):
    """Random turns, and a window that fills and is sent again across the wrap. Each reason must have refused some turn."""
    answers, most = [], 0
    for seed in range(30):
        begin = in_running if seed % 3 else OneStation
        station = begin(calls, 'a station at random, seed %d' % seed, seed)
        for _ in range(1500):
            station.turn()
            most = max(most, station.reading.given)
        answers += station.answers
    answers += full_window(calls) + three_hundred(calls)
    wanted = 'packet WrongState WrongNumber WrongResponse WindowFull Changed NoCause WrongKeep CrossedPeriod WrongUserEvent'
    missing = set(wanted.split()) - set(answers)
    return ['random stations: %d given, and no %s' % (most, missing)] if missing or most < 100 else []


def full_window(calls):
    """255 packets are outstanding; of a REP, of labels and of changed data the answers are told across the wrap."""
    station = in_running(calls, 'a full window')
    for num in range(1, 256):
        station.sends(data_of(num, 0, b'\5'), num)
    for unit in data_of(256, 0, b'\5'), data_of(256, 1, b'\5'), rep_of(255), rep_of(256):
        station.sends(unit)
    station.gets(ack_of(10), (1, 1), False)
    for num in range(256, 266):
        station.sends(data_of(num, 0, b'\5\6'), num)
    for unit in rep_of(255), rep_of(256), rep_of(265), data_of(266, 0, b'\5'):
        station.sends(unit)
    station.gets(nak_of(2, 250), (1, 1), False)
    for num in range(251, 266):
        station.sends(data_of(num, 0, b'\7'))
        station.sends(data_of(num, 0, b'\5' if num < 256 else b'\5\6'), 7)
    return station.answers


def three_hundred(calls):
    """Three hundred packets come, of which the 255th is lost at first."""
    station = in_running(calls, 'three hundred packets')
    for num in list(range(1, 255)) + list(range(256, 301)):
        station.gets(data_of(num, 0, b'\5'), (1, 1), num < 255)
    station.gets(rep_of(300), (1, 1), False)
    station.sends(nak_of(3, 254))
    for num in range(255, 301):
        station.gets(data_of(num, 0, b'\5'), (1, 1), True)
    station.sends(ack_of(300))
    station.sends(nak_of(3, 300 % 256))
    return station.answers
