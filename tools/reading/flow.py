"""The segments of one end of a link and their acknowledgement words, as docs/LINKS.md tells them, and docs/PROTOCOL.md their bytes. A part of
tools/reading/judging.py, which judges pairs apart from the program."""
from reading.rows import Refused, Row

BEGINS, ENDS = 0x20, 0x40  # bits of the flag byte

# what has words that are judged where it is sent
BEARERS = ['a new segment', 'a repeat', 'a data ack']

# The rows of what segments and words say. The checks of a segment that is sent are in its row of the links.
FLOW_RULES = {heading: Row(heading) for heading in ('words that are sent', 'words that come', 'segment that comes')}


def wire(row, number):
    """The bytes of a number."""
    return number % 4096


def distance(row, start, end):
    """How far the number with the bytes `end` lies above one that has the bytes `start`."""
    return (end - start) % 4096


class Flow:
    """One end's segments: its own numbers have no bound, those of the other end it knows by their bytes. Of `handed` the first message is what is
    left of it, and `is_begun` tells whether a piece of it was given. `pieces` are the flag byte and the data of all that were given, by number,
    and `held` those that came. `delivered` is the number of the last segment of what was delivered."""

    def __init__(self, rules):
        self.rules = rules
        self.handed, self.is_begun = [], False
        self.given = self.acknowledged = self.last = 0
        self.received = self.delivered = 0
        self.pieces, self.held = {}, {}

    # -- a segment that is sent

    def number_of(self, row, segnum):
        """The number of a segment that is sent, and whether it is new."""
        if segnum == wire(row, self.given + 1):
            return self.given + 1, True
        return self.given - distance(row, segnum, wire(row, self.given)), False

    def one_of_the_last(self, row, number):
        """Whether a repeat has the number of one of the last 2,047 given."""
        return self.given - number < min(2047, self.given)

    def as_first_given(self, row, number, flag, data):
        """Whether a repeat has the flag byte and the data of the first time, where it is not acknowledged."""
        if number not in self.pieces or number <= self.acknowledged:
            return True
        first_flag, first_data = self.pieces[number]
        bits = BEGINS + ENDS
        return (flag & bits, data) == (first_flag & bits, first_data)

    def room_in_window(self, row):
        return self.given - self.acknowledged < 2047

    def next_piece(self, row, flag, data):
        """Whether a new segment has the next bytes of the message that is handed in."""
        if not self.handed:
            return False
        rest = self.handed[0]
        is_whole = len(data) == len(rest)
        begins = bool(flag & BEGINS) != self.is_begun
        ends = bool(flag & ENDS) == is_whole
        is_next = rest.startswith(data)
        is_full = data or not rest
        return bool(begins and ends and is_next and is_full)

    def give(self, row, flag, data):
        """A new segment is given its number, and its bytes are taken from what was handed in."""
        self.given += 1
        self.pieces[self.given] = flag, data
        if self.handed:
            rest = self.handed[0][len(data):]
            self.handed[:1] = [rest] if rest else []
            self.is_begun = bool(rest)

    # -- words that are sent

    def words_sent(self, words, bearer):
        """What these words leave as the last one sent; a Refused where one is wrong. `bearer` is a name of BEARERS."""
        row, last = self.rules['words that are sent'], self.last
        for word in words:
            qualifier = word >> 12 & 7
            if qualifier in (0, 1):
                last = self.judged(row, last, word, bearer)
        return last

    def judged(self, row, start, word, bearer):
        """What a word leaves as the last one sent, where `start` was that; a Refused where it is wrong."""
        number = word & 0x0fff
        ahead = distance(row, wire(row, start), number)
        if ahead <= self.received - start:
            return start + ahead
        back = distance(row, number, wire(row, start))
        if not self.may_name(row, start, back, bearer):
            raise Refused(21)
        return start

    def may_name(self, row, start, back, bearer):
        """Whether a word of this message may name the number so far below the last one."""
        return bearer == 'a repeat' and back <= min(2047, start)

    # -- what comes

    def words_come(self, words):
        """Each acknowledges all through its number."""
        row = self.rules['words that come']
        for word in words:
            qualifier, number = word >> 12 & 7, word & 0x0fff
            if qualifier <= 1:
                self.acknowledge(row, number)

    def acknowledge(self, row, number):
        """All through this number is acknowledged, where it was given; nothing is taken back."""
        ahead = distance(row, wire(row, self.acknowledged), number)
        if ahead <= self.given - self.acknowledged:
            self.acknowledged += ahead

    def segment_comes(self, segnum, flag, data):
        """A segment that was not received is held."""
        row = self.rules['segment that comes']
        ahead = distance(row, wire(row, self.received), segnum)
        if not 1 <= ahead <= 2047:
            return
        number = self.received + ahead
        self.held.setdefault(number, (flag, data))
        while self.received + 1 in self.held:
            self.received += 1

    # -- what is delivered

    def whole(self):
        """The messages that came whole and are not delivered yet, in order: the number of the last segment of each, and its bytes."""
        joined, messages = b'', []
        for number in sorted(number for number in self.held if self.delivered < number <= self.received):
            flag, data = self.held[number]
            joined += data
            if flag & ENDS:
                messages.append((number, joined))
                joined = b''
        return messages

    def end(self):
        """The link is over: what did not come whole is dropped."""
        last = max([number for number, _ in self.whole()], default=self.delivered)
        self.held = {number: piece for number, piece in self.held.items() if number <= last}
