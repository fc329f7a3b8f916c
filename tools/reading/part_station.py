"""The stations of a part of a run: all that are still possible, as sets. A record goes through each of them, and where none is left it is refused,
for the reason of the check at which the last ones ended; others may have ended at another one (`gave`). What the checks and effects of
tools/reading/station_rules.py are for many stations at once is told here; what they are for one tells tools/reading/station.py. A part of
tools/reading/part_judging.py, which reads parts apart from the program."""
from reading.part_numbers import ALL, AT_START, UNKNOWN
from reading.rows import Refused
from reading.station_rules import CAUSED

# The partner of a station: ANY period of the other side; one of BEFORE the other capture begins, which can be its period 0; or one that is known.
ANY, BEFORE = 'any', 'before'
EVERY_R = frozenset(range(ALL))


class Stations:
    """Stations in one state, with the same partner. `received` are the R that they have, modulo 256, and `numbers` their A, T and N; each of the one
    goes with each of the other. `causes` are those that are open, by reason, or None where any may be."""

    def __init__(self, state, received=frozenset([0]), numbers=AT_START, causes=None, partner=None):
        self.state, self.received, self.numbers, self.partner = state, received, numbers, partner
        self.causes = causes

    def but(self, **changed):
        """The same with some of this changed."""
        return Stations(**{**vars(self), **changed})

    def are_there(self):
        return bool(self.received and self.numbers)

    def __eq__(self, other):
        return vars(self) == vars(other)

    def is_partner(self, period):
        """Whether the other side's period may be their partner."""
        return self.partner in (ANY, period) or self.partner == BEFORE and period == 0


def unknown_stations():
    """All that a station can be at any moment. Only in RUNNING its numbers are of before, and damage may have come."""
    return [Stations('HALTED'), Stations('ISTRT', causes=no_causes()), Stations('ASTRT', causes=no_causes(), partner=ANY),
            Stations('RUNNING', EVERY_R, UNKNOWN, None, ANY)]


def no_causes():
    return dict.fromkeys(CAUSED, 0)


class Midst:
    """What the station of a part can be: `may_be` has these stations. `packets` has by the byte of its number what was sent last with it, and `kept`
    what was kept last. `period` is 0 until a start was seen. `gave` has the reasons for which some of them can't make the present record."""

    def __init__(self, rules, is_part):
        self.rules = rules
        self.may_be = unknown_stations() if is_part else [Stations('HALTED')]
        self.period, self.packets, self.kept = 0, {}, {}
        self.gave = set()

    def left(self, before, stations, reason):
        """The stations that passed a check, of those before it."""
        if stations != before:
            self.gave.add(reason)
        left = that_are_there(stations)
        if not left:
            raise Refused(reason)
        return left

    def partners(self):
        """The partners that they may have."""
        return {group.partner for group in self.may_be}

    def row(self, group, words):
        return self.rules['%s %s' % (group.state, words)]

    # ---- the user

    def user(self, event):
        """The user starts, halts or boots the station."""
        self.gave = set()
        allowed = self.left(self.may_be, [group for group in self.may_be if self.row(group, 'user ' + event)['allowed']], 14)
        if event == 'start':
            self.period, self.packets, self.kept = self.period + 1, {}, {}
            self.may_be = [Stations('ISTRT', causes=no_causes())]
        else:
            self.may_be = [Stations('HALTED') for _ in allowed[:1]]

    # ---- what is sent

    def sends(self, unit):
        """A sound unit is sent."""
        kind = unit.kind if unit.kind != 'NAK' else 'NAK 1 2 3 8' if unit.reason in CAUSED else 'NAK 9 16 17'
        self.gave = set()
        left = self.left(self.may_be, [group for group in self.may_be if self.row(group, 'sends ' + kind)['allowed']], 6)
        row = self.row(left[0], 'sends ' + kind)
        for check in row['checks']:
            name, _, word = check.partition(' ')
            passes, reason = CHECKS[name]
            left = self.left(left, [passes(self, group, unit, word) for group in left], reason)
        for effect in row['effects']:
            left = [EFFECTS[effect.split(' ')[0]](group, unit, effect) for group in left]
        if unit.kind == 'data':
            self.packets[unit.num] = unit.packet
        self.may_be = left

    # ---- what comes

    def gets(self, unit, tag, is_kept):
        """A unit or damage comes. The tag has its sender's period and the partners that this may have had; it is None where nothing is known of it.
        What no correct other end sends to any of them is refused for 8."""
        self.gave, left = set(), self.may_be
        if tag is not None:
            left = self.left(left, [group for group in left if self.has(group, self.row_of(group, unit)['need'], tag)], 13)
        left = self.left(left, [accused(group, unit) for group in left], 8)
        if is_kept:
            left = self.left(left, [taking(group, unit, self.row_of(group, unit)) for group in left], 12)
            self.kept[unit.num] = unit.packet
        self.may_be = that_are_there([self.changed(group, self.row_of(group, unit), unit, tag, is_kept) for group in left])

    def row_of(self, group, unit):
        kind = unit.kind
        if group.state == 'ASTRT' and kind in ('ACK', 'data') and unit.resp != 0:
            kind += ', RESP not 0'
        return self.row(group, 'gets ' + kind)

    def has(self, group, need, tag):
        """Whether a message with this tag may be what the row needs."""
        period, partners = tag
        answers = any(partner in (ANY, self.period) or partner == BEFORE and self.period == 0 for partner in partners)
        return need == 'Anything' or answers and (need == 'Fresh' or group.is_partner(period))

    def changed(self, group, row, unit, tag, is_kept):
        """The stations after the effects of a row."""
        if row['need'] == 'OfPair' and tag is not None:
            group = group.but(partner=tag[0])
        for effect in row['effects']:
            if effect == 'TakePartner':
                group = group.but(partner=BEFORE if tag is None else tag[0])
            elif effect == 'TakePacket':
                group = taken(group, unit, is_kept)
            else:
                group = EFFECTS[effect.split(' ')[0]](group, unit, effect)
        return group


def that_are_there(groups):
    """Those that have a station; of those that are alike one."""
    kept = []
    for group in groups:
        if group.are_there() and group not in kept:
            kept.append(group)
    return kept


def accused(group, unit):
    """Those of them to which a correct other end may send this: one that runs gets a RESP among A to N."""
    if group.state != 'RUNNING' or unit.kind not in ('ACK', 'NAK', 'data'):
        return group
    return group.but(numbers=group.numbers.may_get(unit.resp))


def taking(group, unit, row):
    """Those of them that can keep the packet."""
    is_taken = 'TakePacket' in row['effects']
    return group.but(received=group.received & {(unit.num - 1) % ALL} if is_taken else frozenset())


def taken(group, unit, is_kept):
    """A packet that is next is kept, or there was no buffer for it."""
    before = (unit.num - 1) % ALL
    if is_kept:
        return group.but(received=frozenset([unit.num]))
    return opened(group, 8) if before in group.received else group


def opened(group, reason):
    """One more cause of this reason is open. Where causes are counted R is known."""
    if group.causes is None:
        return group
    return group.but(causes={**group.causes, reason: group.causes[reason] + 1})


# ---- checks: those that pass one, and the reason where there are none

def with_cause(midst, group, unit, reason):
    is_open = group.causes is None or unit.reason != int(reason) or group.causes[unit.reason] > 0
    return group if is_open else group.but(received=frozenset())


def as_first_given(midst, group, unit, word):
    """A number of which no packet was seen may have any."""
    if midst.packets.get(unit.num, unit.packet) == unit.packet:
        return group
    return group.but(numbers=group.numbers.sends_new())


CHECKS = {
    'RespIsLast': (lambda midst, group, unit, word: group.but(received=group.received & {unit.resp}), 8),
    'CauseIsOpen': (with_cause, 11),
    'SomeOutstanding': (lambda midst, group, unit, word: group.but(numbers=group.numbers.some_outstanding()), 6),
    'NumIsHighest': (lambda midst, group, unit, word: group.but(numbers=group.numbers.highest_is(unit.num)), 7),
    'NumIsNext': (lambda midst, group, unit, word: group.but(numbers=group.numbers.next_is(unit.num)), 7),
    'RoomIfNew': (lambda midst, group, unit, word: group.but(numbers=group.numbers.with_room()), 9),
    'AsFirstGiven': (as_first_given, 10),
}


# ---- effects

def use_cause(group, unit, effect):
    if group.causes is None or unit.reason != int(effect.split(' ')[1]):
        return group
    return group.but(causes={**group.causes, unit.reason: group.causes[unit.reason] - 1})


def go_to(group, unit, effect):
    """What a halted station has kept is nothing to its next start."""
    state = effect.split(' ')[1]
    return Stations('HALTED') if state == 'HALTED' else group.but(state=state)


def answer_rep(group, unit, effect):
    return group if unit.num in group.received else opened(group, 3)


EFFECTS = {
    'UseCause': use_cause,
    'SendPacket': lambda group, unit, effect: group.but(numbers=group.numbers.sent()),
    'Respond': lambda group, unit, effect: group.but(numbers=group.numbers.acknowledged(unit.resp)),
    'SetBack': lambda group, unit, effect: group.but(numbers=group.numbers.set_back()),
    'AnswerRep': answer_rep,
    'OpenCause': lambda group, unit, effect: opened(group, int(effect.split(' ')[1])),
    'GoTo': go_to,
}
