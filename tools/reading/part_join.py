"""What two sides of a run exclude together: once they have met, what a station received lies between what the other knows to be acknowledged and
what it gave. A record after which no numbers of both are left breaks no rule of its own side, and nobody is accused: reason 28. This is milder than
the definition, since it notes for each side what the other leaves it, and not which numbers go together. A part of tools/reading/part_judging.py,
which reads parts apart from the program."""
import copy

from reading.part_numbers import ALL, EVERY, Shifted
from reading.part_station import that_are_there
from reading.rows import Refused


class Joined:
    """Both stations as far as the other side leaves them, from when they have met; none before that, nor after a unit from behind an end. What is
    asked of one of them is asked of its own station first, so that what fails here alone is 28."""

    def __init__(self, sides):
        self.sides, self.stations, self.is_over = sides, None, False

    def after(self, side, deed):
        """The deed of a side, which its own station passed, beside the other's."""
        if self.stations is None or self.is_over:
            return
        try:
            deed(self.stations[side])
        except Refused:
            raise Refused(28) from None

    def meets(self):
        """A unit of the other capture was received."""
        if self.stations is None:
            self.stations = {side: copied(side.midst) for side in self.sides}

    def parts(self):
        """A unit came from behind an end."""
        self.is_over = True

    def excludes(self):
        """Leaves each side what the other leaves it; both have to run."""
        if self.stations is None or self.is_over:
            return
        one, other = self.stations.values()
        for sender, receiver in (one, other), (other, one):
            if all(group.state == 'RUNNING' for station in (one, other) for group in station.may_be):
                sender.may_be = that_are_there([with_received(group, receiver) for group in sender.may_be])
                receiver.may_be = that_are_there([with_given(group, sender) for group in receiver.may_be])
                if not sender.may_be or not receiver.may_be:
                    raise Refused(28)

    def compares(self, side, unit):
        """A packet that comes with a number under which another one was kept may only be one that is far ahead."""
        if self.stations is None or self.is_over or unit.kind != 'data':
            return
        station = self.stations[side]
        sender, = [other for name, other in self.stations.items() if name is not side]
        if station.kept.get(unit.num, unit.packet) == unit.packet:
            return
        received = {number for group in station.may_be if group.state == 'RUNNING' for number in group.received}
        if len(received) == 1 and not any(may_be_ahead(group.numbers, unit.num, *received) for group in sender.may_be):
            raise Refused(28)


def copied(midst):
    """The same stations, of which each goes its own way from here on."""
    made = copy.copy(midst)
    made.packets, made.kept = dict(midst.packets), dict(midst.kept)
    return made


def with_received(group, receiver):
    """Of these the numbers with an R that the other side may have: it is from A through N."""
    received = set().union(*(other.received for other in receiver.may_be))
    if len(received) == ALL or isinstance(group.numbers, Shifted):
        return group

    def let_through(a, t):
        bits = 0
        for number in received:
            bits |= EVERY >> (number - a) % ALL << (number - a) % ALL
        return bits
    return group.but(numbers=group.numbers.where(let_through))


def with_given(group, sender):
    """Of these the R that lies from A through N of the other side."""
    allowed = set()
    for other in sender.may_be:
        if isinstance(other.numbers, Shifted):
            return group
        for (a, _), bits in other.numbers.sets.items():
            if bits >> ALL - 1:
                return group
            allowed.update((a + ahead) % ALL for ahead in range(bits.bit_length()))
    return group.but(received=group.received & allowed)


def may_be_ahead(numbers, num, received):
    """Whether a number with the byte NUM can be one that was given above R, and not at most R."""
    ahead = ALL - (received - num) % ALL
    if isinstance(numbers, Shifted):
        return True
    return any(bits >> (received - a) % ALL + ahead for (a, _), bits in numbers.sets.items())
