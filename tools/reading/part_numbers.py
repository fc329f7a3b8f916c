"""A, T and N of all stations that may have made what was seen so far, each as a member of one set. A part of tools/reading/part_station.py, which
reads parts of a run apart from the program."""
ALL = 256  # how many numbers have different bytes
EVERY = (1 << ALL) - 1  # each N from A through A + 255


class Numbers:
    """`sets` has for each A and T the N that may go with them, as bits: bit w is set where N may be A + w. A is from 0 through 255, T above A."""

    def __init__(self, sets):
        self.sets = {key: bits for key, bits in sets.items() if bits}

    def __bool__(self):
        return bool(self.sets)

    def __eq__(self, other):
        return type(self) is type(other) and self.sets == other.sets

    def where(self, let_through):
        """Those of which the bits are let through: it is asked with each A and T."""
        return type(self)({(a, t): bits & let_through(a, t) for (a, t), bits in self.sets.items()})

    def moved(self, step):
        """What each becomes by a step, which is asked with each A, T and its bits for the same three. 256 are taken off where A is as high."""
        made = {}
        for (a, t), bits in self.sets.items():
            a, t, bits = step(a, t, bits)
            turns = a // ALL * ALL
            key = a - turns, t - turns
            made[key] = made.get(key, 0) | bits
        return Numbers(made)

    # ---- checks: those that pass

    def next_is(self, num):
        """T is NUM."""
        return self.where(lambda a, t: EVERY if t % ALL == num else 0)

    def with_room(self):
        """T is at most N, or fewer than 255 are unacknowledged."""
        return self.where(lambda a, t: EVERY ^ new(a, t) if t - 1 - a >= 255 else EVERY)

    def sends_new(self):
        """T is N + 1."""
        return self.where(new)

    def some_outstanding(self):
        """A is not N."""
        return self.where(lambda a, t: EVERY ^ 1)

    def highest_is(self, num):
        """N is NUM."""
        return self.where(lambda a, t: 1 << (num - a) % ALL)

    def may_get(self, resp):
        """RESP is among A to N."""
        return self.where(lambda a, t: EVERY >> (resp - a) % ALL << (resp - a) % ALL)

    # ---- effects

    def sent(self):
        """T rises by one, and N with it where T was above it."""
        return self.moved(lambda a, t, bits: (a, t + 1, bits & ~new(a, t) | (bits & new(a, t)) << 1))

    def acknowledged(self, resp):
        """A is RESP, and T above it: of those that may get it."""
        def step(a, t, bits):
            ahead = (resp - a) % ALL
            return a + ahead, max(t, a + ahead + 1), bits >> ahead
        return self.moved(step)

    def set_back(self):
        """T is A + 1."""
        return self.moved(lambda a, t, bits: (a, a + 1, bits))


class Shifted(Numbers):
    """The same where any number may be added to all three. Of those that it has A is 0. What says a number ends this."""

    def next_is(self, num):
        return self.moved(lambda a, t, bits: ((num - t) % ALL, (num - t) % ALL + t, bits))

    def highest_is(self, num):
        return Numbers({((num - w) % ALL, (num - w) % ALL + t): bits & 1 << w for (_, t), bits in self.sets.items() for w in range(ALL)})

    def may_get(self, resp):
        """With A as high as RESP each may."""
        return self

    def acknowledged(self, resp):
        """Of all that RESP can be above A that which leaves most: A is RESP. Each other leaves a part of these."""
        return self.moved(lambda a, t, bits: (resp, resp + t, bits))


def new(a, t):
    """The N of a station that has sent all through T - 1 and goes on with a new packet, as a bit."""
    return 1 << t - 1 - a


# of a station that has just started, and of one of which nothing is known
AT_START = Numbers({(0, 1): 1})
UNKNOWN = Shifted({(0, t): EVERY >> t - 1 << t - 1 for t in range(1, ALL + 1)})
