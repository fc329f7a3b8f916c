"""What `check --all` and `alone --all` print, by the second reading of the rules. A refusal of a link leaves out its group, and both texts are
judged once more from their beginnings, until they are accepted or are refused for a reason that nothing can be left out for.

`check_all(a, b)` is what is printed for both captures, `alone_all(a)` for one; a `Departs` where that is a fault of a text alone. `pair_listing` and
`end_listing` are the lists themselves, whose `steps` say what each judgement left out."""
from collections import namedtuple

from reading.alone import FREE, Alone, first_refused_alone, message_in, said_alone
from reading.groups import FROM_HERE, OF_LINKS, RECEIPTS, Grouping, why_unread
from reading.judging import NAMES, RULES, Side, first_refused
from reading.line import WithoutLinks
from reading.links import NO_TAG
from reading.rows import Departs

MOST = 50  # lines `refused`

# of nodes whose stations act on what comes by its bytes
WITHOUT_PERIODS = {heading: row.copy(need='Anything') if 'need' in row.parts else row for heading, row in RULES.items()}


# ---- sides that leave out

class Leaving:
    """A side that leaves out the ends `left`: their messages are not met by its links, and their events stand anywhere. What can't be read, for one
    of the reasons `dropped`, is carried. `sender` are both nodes of the other side's head, its own one first."""

    def leaves(self, letter, grouping, left, dropped, sender=None):
        self.letter, self.grouping, self.left = letter, grouping, left
        self.sender = sender or (self.peer, self.own)
        self.carried = {15, 17} & dropped
        return self

    def is_left(self, text, comes):
        """Whether the message in a packet is left out."""
        _, message = message_in(text)
        return message is not None and self.grouping.end_of(self.letter, message, comes) in self.left

    def user(self, words):
        is_left = not self.left.isdisjoint(self.grouping.ends_of_event(self.letter, words))
        if not is_left:
            super().user(words)

    def meets(self, text):
        if why_unread(text) in self.carried:
            return NO_TAG
        return NO_TAG if self.is_left(text, False) else super().meets(text)

    def kept(self, text, label):
        if not self.is_left(text, True):
            super().kept(text, label)


class SideLeaving(Leaving, Side):
    """A side of a pair."""


class StationLeaving(WithoutLinks, Leaving, Side):
    """The same of a station with nothing on top."""


class AloneLeaving(Leaving, Alone):
    """One end alone."""

    def accuses_packet(self, text):
        if why_unread(text) not in self.carried:
            super().accuses_packet(text)


class StationAloneLeaving(WithoutLinks, Leaving, Alone):
    """The same of a station with nothing on top."""

    def accuses_packet(self, text):
        pass


# ---- the list

# What one judgement says: the line that is printed, or both lines of counts too; the reason of the refusal, or None; the end that it is of; and by
# side how many records were made.
Judgement = namedtuple('Judgement', 'said reason end made', defaults=(None, None, None))
# A judgement with the ends that it left out, and the reasons of what it did not ask for.
Step = namedtuple('Step', 'left dropped judgement')


class Listing:
    """The list of refusals, where `judge(left, dropped)` is a judgement that leaves out these ends, and does not ask what these reasons are for."""

    def __init__(self, grouping, bindings, judge):
        self.grouping, self.bindings, self.judge = grouping, bindings, judge
        self.left, self.dropped = frozenset(), frozenset()
        self.lines, self.refusals, self.steps, self.has_more = [], 0, [], False

    def printed(self):
        while True:
            judgement = self.next_judgement()
            self.steps.append(Step(self.left, self.dropped, judgement))
            if self.is_full() and self.goes_on(judgement):
                self.has_more = True
                return ''.join(self.lines) + 'and more\n'
            if not self.goes_on(judgement):
                return ''.join(self.lines) + 'else ' * bool(self.lines) + judgement.said
            self.notes(judgement)

    def next_judgement(self):
        """A judgement; a fault of a text is one too, unless it is the first."""
        try:
            return self.judge(self.left, self.dropped)
        except Departs as departs:
            if not self.lines:
                raise
            return Judgement('%s\n' % departs)

    def without_first(self):
        """The line that is said where what the first refusal leaves out is left out at once; None where that is nothing."""
        first = self.judge(frozenset(), frozenset())
        if first.reason not in OF_LINKS or first.end is None:
            return None
        return self.judge(frozenset(self.grouping.group_of(first.end, self.bindings, first.made)), frozenset()).said.partition('\n')[0]

    def goes_on(self, judgement):
        """Whether the list goes on behind a judgement."""
        reason = judgement.reason
        return reason in FROM_HERE or reason in OF_LINKS

    def is_full(self):
        return self.refusals >= MOST

    def notes(self, judgement):
        """The line of a refusal, and what is left out behind it."""
        self.refusals += 1
        self.lines.append(judgement.said)
        if judgement.reason in FROM_HERE:
            self.dropped |= {judgement.reason}
            self.lines.append('from here %s\n' % FROM_HERE[judgement.reason])
        else:
            self.left |= self.grouping.group_of(judgement.end, self.bindings, judgement.made)


def end_refused(side):
    """The end that the next record of a side is of, or None."""
    return next(iter(side.grouping.ends_of(side.letter, side.records[side.next])), None)


def rules_without(dropped):
    """The rules of a pair, but for what these reasons are for."""
    return WITHOUT_PERIODS if 13 in dropped else RULES


# How it is judged, whom each record is of.
Way = namedtuple('Way', 'line queued grouping')


def sides_leaving(a, b, left, dropped, way):
    """Both sides, which leave out these ends and do not ask what these reasons are for; and their rules."""
    rules, kind = rules_without(dropped), StationLeaving if way.line else SideLeaving
    sides = [kind(rules, text, way.queued) for text in (a, b)]
    for side, letter, other in zip(sides, 'ab', reversed(sides)):
        side.leaves(letter, way.grouping, left, dropped, (other.own, other.peer))
    return rules, sides


def pair_listing(a, b, line=False, queued=False):
    way = Way(line, queued, Grouping())

    def judge(left, dropped):
        rules, sides = sides_leaving(a, b, left, dropped, way)
        refused = first_refused(rules, sides)
        if refused is None:
            return Judgement('accepted\na %s\nb %s\n' % (sides[0].ends(), sides[1].ends()))
        side, reason = refused
        said = 'refused %s %d line %d: %d %s\n' % (side.letter, side.next, side.next + 2, reason, NAMES[reason - 1])
        return Judgement(said, reason, end_refused(side), {one.letter: one.next for one in sides})

    return Listing(way.grouping, way.grouping.bindings('a', a, 's') + way.grouping.bindings('b', b, 's'), judge)


def check_all(*words):
    return pair_listing(*words).printed()


def side_leaving(a, left, dropped, way):
    """The side of one end, which leaves out these ends and does not ask what these reasons are for."""
    kind = StationAloneLeaving if way.line else AloneLeaving
    return kind(FREE, a, queued=way.queued).leaves('a', way.grouping, left, dropped)


def end_listing(a, line=False, queued=False):
    """The same of one capture, with what its own text binds: of the CC messages those that it sends and those that come."""
    way = Way(line, queued, Grouping())

    def judge(left, dropped):
        side = side_leaving(a, left, dropped, way)
        refusal = first_refused_alone(side)
        if refusal is None:
            return Judgement(said_alone(side, None))
        return Judgement(said_alone(side, refusal), refusal.reason, end_refused(side), {'a': side.next})

    return Listing(way.grouping, way.grouping.bindings('a', a, ('s', *RECEIPTS)), judge)


def alone_all(*words):
    return end_listing(*words).printed()
