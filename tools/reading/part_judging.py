"""The second reading of parts of a run: one side alone by all stations that are still possible, and two captures of which at least one is a part,
each side by its own. A run is a part's records with any before them and, as a capture may end at any moment, with any behind them. So a unit of a
part can come that was sent before the capture begins (`-`), or behind its end: then the receiver is judged alone from there on. `judged_part(a)` and
`judged_parts(a, b)` are the answers for stations alone, as `--line` gives them; with `asks` also for the reasons in UNASKED. The other modules of
this folder judge whole captures, apart from the program."""
from collections import Counter, namedtuple

from reading.judging import DAMAGED, NAMES, RECEIPTS, RULES
from reading.part_join import Joined
from reading.part_station import Midst
from reading.packets import MALFORMED, read_unit
from reading.rows import Refused

# What the program does not ask yet of parts: the periods, and what two sides exclude through what neither shows.
UNASKED = 13, 28
OF_STATIONS = 6, 7, 8, 9, 10, 11, 12, 13, 14
BEFORE = '-'


class PartSide:
    """A station with its capture, which is a part where its head says so. `units` has what it sent, as text with the tag that it then had; `front`
    is the number of the first unit of the other side that may come next, or None where units of before may come. `lone_from` is the record from
    which it is judged alone, since the other capture ends before."""

    def __init__(self, text, asks):
        head, *lines = text.splitlines()
        self.is_part = head.endswith(' part')
        self.records = [line.split(' ') for line in lines]
        if head.split()[1] == '2':
            self.counts_hints()
        self.asks, self.joined = asks, Joined(())
        self.midst = Midst(RULES, self.is_part)
        self.next, self.units, self.front, self.lone_from = 0, [], None, None
        self.counts = Counter(records=len(lines))

    def counts_hints(self):
        """In format 2 a hint is a distance from the front."""
        front = 0
        for record in self.records:
            if record[0] in RECEIPTS:
                record[1] = str(front + int(record[1]))
                front = int(record[1]) + 1

    def has_ended(self):
        return self.next == len(self.records)

    # -- what the line has

    def hint(self):
        """The number in the next record, where that is a receipt of a unit which has one."""
        verb, *words = self.records[self.next]
        return int(words[0]) if verb in RECEIPTS and words[0] != BEFORE else None

    def is_behind(self, other):
        """Whether the next record is a receipt of a unit that the other side sent behind the end of its capture, and this is known."""
        return self.hint() is not None and other.is_part and other.has_ended() and self.hint() >= len(other.units)

    def waits(self, other):
        """Whether the next record is a receipt of a unit that is not sent yet."""
        hint = self.hint()
        is_in_order = hint is not None and (self.front is None or hint >= self.front)
        return is_in_order and hint >= len(other.units) and not self.is_behind(other)

    # -- a record

    def make(self, other=None):
        """Makes the next record, beside another side or alone; a Refused where it can't be made."""
        verb, *words = self.records[self.next]
        if verb == 'u':
            self.user(words)
        elif verb == 's':
            self.sends(words[0])
        elif verb == 'n':
            self.hears_noise(words[0])
        elif verb in RECEIPTS:
            self.receives(other, words[1], verb != 'r')
        self.joined.excludes()
        self.next += 1

    def does(self, deed):
        """Something that the station does."""
        deed(self.midst)
        self.joined.after(self, deed)

    def user(self, words):
        """An event of the station; links are not judged."""
        if len(words) == 1:
            self.does(lambda midst: midst.user(words[0]))
            self.counts['periods'] += words[0] == 'start'

    def sends(self, text):
        unit = unit_in(text)
        if unit == MALFORMED or unit in DAMAGED:
            raise Refused(1)
        self.does(lambda midst: midst.sends(unit))
        self.units.append((text, (self.midst.period, self.midst.partners())))
        self.counts['sent'] += 1

    def hears_noise(self, text):
        unit = unit_in(text)
        if unit not in DAMAGED:
            raise Refused(27)
        self.comes(unit, None, False)

    def receives(self, other, text, is_kept):
        """A receipt: what the line lets through comes to the station."""
        hint, front = self.hint(), self.front
        if hint is None and (front is not None or other is not None and not other.is_part) or hint is not None and hint < (front or 0):
            raise Refused(2)
        self.front = front if hint is None else hint + 1
        unit = unit_in(text)
        if other is None or hint is None or self.is_behind(other):
            if other is not None and hint is not None:
                self.is_alone()
            if unit == MALFORMED:
                raise Refused(1)
            return self.comes(unit, None, is_kept)
        sent, tag = other.units[hint]
        if text != sent and unit not in DAMAGED:
            raise Refused(5)
        self.comes(unit, tag if text == sent and 13 in self.asks else None, is_kept)
        if 28 in self.asks:
            self.joined.meets()
            self.joined.compares(self, unit)

    def is_alone(self):
        """From this record on it is judged alone."""
        self.joined.parts()
        if self.lone_from is None:
            self.lone_from = self.next

    def comes(self, unit, tag, is_kept):
        self.does(lambda midst: midst.gets(unit, tag, is_kept))
        self.counts.update(received=1, damaged=unit in DAMAGED, kept=is_kept)

    def ends(self):
        """The counts of its line in an acceptance."""
        return ' '.join('%s %d' % (name, self.counts[name]) for name in 'records sent received damaged kept periods'.split())


def unit_in(text):
    """What these bytes spell."""
    return read_unit(text.replace('-', ''))


# ---- the answers

# What is told, but by which end; and, of a refusal, the numbers of all reasons for which a station that was possible can't make the record. The
# definition does not say which of these is told: here it is that of the check at which the last stations ended.
Answer = namedtuple('Answer', 'told reasons')


def refusal(letter, side, reason):
    told = 'refused %s %d line %d: %d %s\n' % (letter, side.next, side.next + 2, reason, (NAMES + ['NoBeginning'])[reason - 1])
    return Answer(told, {reason} | side.midst.gave if reason in OF_STATIONS else {reason})


def judged_part(text):
    """The answer to this capture alone."""
    side = PartSide(text, ())
    while not side.has_ended():
        try:
            side.make()
        except Refused as refused:
            return refusal('a', side, refused.reason)
    return Answer('passed\na %s\n' % side.ends(), set())


def judged_parts(a, b, asks=()):
    """The answer to these captures: side a goes on until it waits or has ended, and then side b makes a record."""
    sides = dict(zip('ab', (PartSide(a, asks), PartSide(b, asks))))
    sides['a'].joined = sides['b'].joined = Joined(tuple(sides.values()))
    refused = first_refused(sides)
    if refused is not None:
        return refused
    lone = ['%s is judged alone from line %d on: the capture of %s ends\n' % (letter, side.lone_from + 2, 'ba'['ab'.index(letter)])
            for letter, side in sides.items() if side.lone_from is not None]
    return Answer('accepted\na %s\nb %s\n' % (sides['a'].ends(), sides['b'].ends()) + ''.join(lone), set())


def first_refused(sides):
    """Both sides make their records: the answer to the first that is refused, or None where all are made."""
    while not all(side.has_ended() for side in sides.values()):
        going = [(letter, side, sides['ba'['ab'.index(letter)]]) for letter, side in sides.items() if not side.has_ended()]
        letter, side, other = next((turn for turn in going if not turn[1].waits(turn[2])), going[0])
        if side.waits(other):
            return refusal(letter, side, 3 if other.has_ended() else 4)
        try:
            side.make(other)
        except Refused as refused:
            return refusal(letter, side, refused.reason)
    return None
