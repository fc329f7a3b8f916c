"""The stations, as docs/PROTOCOL.md tells them: what each check and effect of the tables in tools/reading/station_rules.py is. A part of
tools/reading/judging.py, which judges pairs apart from the program."""
from reading.rows import Refused
from reading.station_rules import CAUSED, FREE, NUMBERS


class Station:
    """A station: its numbers without a bound, as its own side has them; those of others it knows by their bytes. `packets` are those given in the
    period by number, `firsts` the units of their first sending, and `labels` what its user wants to know of each again."""

    def __init__(self, rules):
        self.rules = rules
        self.state = 'HALTED'
        self.period = 0
        self.partner = None
        self.received = self.given = self.acknowledged = 0
        self.next = 1
        self.packets, self.firsts, self.labels = {}, {}, {}
        self.causes = dict.fromkeys(CAUSED, 0)

    def tag(self):
        return self.period, self.partner

    def user(self, event):
        """The user starts or halts the station."""
        row = self.rules['%s user %s' % (self.state, event)]
        if not row['allowed']:
            raise Refused(14)
        self.do(row, None, None, False)

    def do(self, row, unit, tag, kept):
        """Does the effects of a row, in their order."""
        for effect in row['effects']:
            word, _, name = effect.partition(' ')
            EFFECTS[word](self, row, name, (unit, tag, kept))

    # -- what is sent

    def sends(self, unit):
        """Whether a number was given."""
        kind = unit.kind if unit.kind != 'NAK' else 'NAK 1 2 3 8' if unit.reason in CAUSED else 'NAK 9 16 17'
        row = self.rules['%s sends %s' % (self.state, kind)]
        if not row['allowed']:
            raise Refused(6)
        for check in row['checks']:
            name, _, reason = check.partition(' ')
            is_passed, refusal = CHECKS[name]
            if not is_passed(self, row, unit, reason):
                raise Refused(refusal)
        given = self.given
        self.do(row, unit, None, False)
        return self.given > given

    def opens_cause(self, reason):
        """One more cause of this reason is open."""
        self.causes[reason] += 1

    def label_of_last(self):
        """What was noted beside the packet that was sent last."""
        return self.labels.get(self.next - 1)

    # -- what comes

    def gets(self, unit, tag, kept):
        """What comes, with the tag of its sender. Whether a packet was taken."""
        kind = unit.kind
        if self.state == 'ASTRT' and kind in ('ACK', 'data') and unit.resp != 0:
            kind += ', RESP not 0'
        row = self.rules['%s gets %s' % (self.state, kind)]
        if not self.has(row['need'], tag):
            raise Refused(13)
        takes = 'TakePacket' in row['effects'] and unit.num == (self.received + 1) % 256
        if kept and not takes and not row['kept']:
            raise Refused(12)
        self.do(row, unit, tag, kept)
        return takes and kept

    def has(self, need, tag):
        """Whether a message with this tag is what the row needs."""
        if tag is None or need == 'Anything':
            return True
        period, partner = tag
        return partner == self.period and (need == 'Fresh' or period == self.partner)


# ---- checks: whether it is passed, and the reason where not

def cause_is_open(station, row, unit, reason):
    if unit.reason != int(reason):
        return True
    return any(station.causes.values()) if unit.reason in FREE else station.causes[unit.reason] > 0


def resp_is_last(station, row, unit, reason):
    return unit.resp == station.received % 256


def num_is_highest(station, row, unit, reason):
    return unit.num == station.given % 256


def num_is_next(station, row, unit, reason):
    return unit.num == station.next % 256


def as_first_given(station, row, unit, reason):
    """A packet that is sent again is that which has the number. After a start there is none with the next number."""
    return station.packets.get(station.next, unit.packet) == unit.packet


def room_if_new(station, row, unit, reason):
    is_new = station.next == station.given + 1
    return station.next <= station.given or is_new and station.given - station.acknowledged < 255


CHECKS = {
    'RespIsLast': (resp_is_last, 8),
    'CauseIsOpen': (cause_is_open, 11),
    'SomeOutstanding': (lambda station, row, unit, reason: station.acknowledged != station.given, 6),
    'NumIsHighest': (num_is_highest, 7),
    'NumIsNext': (num_is_next, 7),
    'RoomIfNew': (room_if_new, 9),
    'AsFirstGiven': (as_first_given, 10),
}


# ---- effects

def use_cause(station, row, reason, came):
    """One open cause of the reason is used up; of a reason that needs none, the first that is open."""
    unit, _, _ = came
    if unit.reason != int(reason):
        return
    for cause in CAUSED if unit.reason in FREE else [unit.reason]:
        if station.causes[cause] > 0:
            station.causes[cause] -= 1
            return


def send_packet(station, row, name, came):
    unit, _, _ = came
    is_new = station.next > station.given
    if is_new:
        station.given += 1
        station.packets[station.given], station.firsts[station.given] = unit.packet, unit
    station.next += 1


def respond(station, row, name, came):
    unit, _, _ = came
    ahead = (unit.resp - station.acknowledged) % 256
    if 1 <= ahead <= station.given - station.acknowledged:
        station.acknowledged += ahead
        station.next = max(station.next, station.acknowledged + 1)


def set_back(station, row, name, came):
    station.next = station.acknowledged + 1


def take_packet(station, row, name, came):
    unit, _, kept = came
    is_next = unit.num == (station.received + 1) % 256
    if is_next and not kept:
        station.opens_cause(8)
    if is_next and kept:
        station.received += 1


def answer_rep(station, row, name, came):
    unit, _, _ = came
    if unit.num != station.received % 256:
        station.opens_cause(3)


def open_cause(station, row, reason, came):
    station.opens_cause(int(reason))


def anew(station, row, name, came):
    """What a start sets anew."""
    if name == 'the period':
        station.period += 1
    elif name == 'the partner':
        station.partner = None
    elif name == 'the packets':
        station.packets, station.firsts, station.labels = {}, {}, {}
    elif name == 'the causes':
        station.causes = dict.fromkeys(CAUSED, 0)
    else:
        setattr(station, NUMBERS[name], 1 if name == 'T' else 0)


def go_to(station, row, state, came):
    station.state = state


def take_partner(station, row, name, came):
    _, tag, _ = came
    station.partner = tag[0]


EFFECTS = {
    'UseCause': use_cause,
    'SendPacket': send_packet,
    'Respond': respond,
    'SetBack': set_back,
    'TakePacket': take_packet,
    'AnswerRep': answer_rep,
    'OpenCause': open_cause,
    'GoTo': go_to,
    'TakePartner': take_partner,
    'anew': anew,
}
