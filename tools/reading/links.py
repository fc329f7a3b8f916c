"""The links of a node, as docs/LINKS.md tells them: tables of what the user does, of what may be sent and of what an arrival does, with the
look-ups. A part of tools/reading/judging.py, which judges pairs apart from the program."""
from collections import namedtuple

from reading.flow import FLOW_RULES, Flow
from reading.rows import Refused, Row

PHASES = ['Calling', 'Called', 'Confirming', 'RUN', 'DI', 'Ended']
IN_RUN = ['segment', 'data ack', 'link service', 'interrupt', 'other-data ack']

# The link of the sender, and its partner then, each as the number of that link at its node, or None.
Tag = namedtuple('Tag', 'link partner')
NO_TAG = Tag(None, None)

# ---- the tables

# the tests of each look-up
LOOK_UPS = {
    'HasAddress': ['own'],
    'LiveAt': ['own', 'live'],
    'TheLink': ['own', 'far', 'live'],
    'LiveTo': ['far', 'live'],
    'OpenedAt': ['own', 'opened', 'live'],
    'CallingAt': ['own', 'calling'],
    'CalledBy': ['far', 'called'],
    'BegunBy': ['far', 'live', 'begun by a CI'],
    'ActedOn': ['own', 'far', 'connected'],
}
TESTS = {
    'own': lambda link, own, far: link.own is not None and link.own == own,
    'far': lambda link, own, far: link.far is not None and link.far == far,
    'live': lambda link, own, far: link.is_live(),
    'opened': lambda link, own, far: link.opened,
    'begun by a CI': lambda link, own, far: not link.opened,
    'calling': lambda link, own, far: link.phase == 'Calling',
    'called': lambda link, own, far: link.phase == 'Called',
    'connected': lambda link, own, far: link.phase in ('Confirming', 'RUN'),
}

# what the user does: the look-up of the link, the checks in their order, the phases, and the effects
USER = {
    'open': (None, ['AddressIsFree'], PHASES, ['BeginLink']),
    'accept': ('CalledBy', ['CallIsThere', 'AddressIsFree'], PHASES, ['GiveAddress', 'GoTo Confirming']),
    'reject': ('CalledBy', ['CallIsThere', 'AddressIsFree'], PHASES, ['GiveAddress', 'GoTo DI']),
    'in': ('LiveAt', ['AddressIsLive', 'RightPhase'], ['Calling', 'Confirming', 'RUN'], ['HandIn']),
    'up': ('HasAddress', ['AddressWasGiven', 'RightPhase', 'IsNextMessage'], PHASES, ['Deliver']),
    'close': ('LiveAt', ['AddressIsLive', 'RightPhase'], ['Confirming', 'RUN'], ['GoTo DI']),
    'abort': ('LiveAt', ['AddressIsLive', 'RightPhase'], ['Calling'], ['GiveUp']),
}

# what may be sent, likewise; of a DC the phases are those of a link that may be there
NODES, LINK = ['BetweenNodes'], ['BetweenNodes', 'LinkIsThere']
OF_SEGMENTS = ['WordsAreRight', 'RoomInWindow', 'FitsSegsize', 'NextPiece', 'OneOfTheLast', 'AsFirstGiven']
SENDING = {
    'no operation': (None, NODES, PHASES, []),
    'CI': ('OpenedAt', LINK + ['RightPhase'], ['Calling'], ['NoteCall']),
    'connect ack': ('BegunBy', LINK, PHASES, []),
    'CC': ('TheLink', LINK + ['RightPhase'], ['Confirming'], []),
    'DI': ('TheLink', LINK + ['RightPhase'], ['DI'], []),
    'DC': ('TheLink', NODES + ['NoLink'], [], ['EndCalled']),
    'segment': ('TheLink', LINK + ['RightPhase'] + OF_SEGMENTS, ['RUN'], ['MoveLast', 'GiveNumber']),
    'data ack': ('TheLink', LINK + ['RightPhase', 'WordsAreRight'], ['RUN'], ['MoveLast']),
    **{name: ('TheLink', LINK + ['RightPhase'], ['RUN'], []) for name in ('link service', 'interrupt', 'other-data ack')},
}

# what an arrival does: the look-up of the link, the checks of it, its phases, and the effects
FITS = ['SenderIsPartner', 'ForThisLink']
BEGINS = ['BeginLink', 'the far address', 'the partner', 'SEGSIZE']
CONFIRMS = ['GoTo RUN', 'the far address', 'the partner', 'SEGSIZE']
ARRIVING = {
    'no operation': (None, [], PHASES, []),
    'CI': ('LiveTo', [], PHASES, BEGINS),
    'connect ack': ('OpenedAt', [], PHASES, []),
    'CC': ('CallingAt', ['ForThisLink'], PHASES, CONFIRMS),
    'DI': ('TheLink', [], PHASES, ['EndLink']),
    'DC': ('TheLink', [], PHASES, ['EndLink']),
    'segment': ('ActedOn', FITS, PHASES, ['GoTo RUN', 'TakeWords', 'TakeSegment']),
    'data ack': ('ActedOn', FITS, PHASES, ['GoTo RUN', 'TakeWords']),
    **{name: ('ActedOn', FITS, PHASES, ['GoTo RUN']) for name in ('link service', 'interrupt', 'other-data ack')},
}


def link_rules():
    """The rows of the links, by heading."""
    rules = [Row('look-up ' + name, tests=tests) for name, tests in LOOK_UPS.items()]
    for verb, table in ('user', USER), ('sends', SENDING), ('gets', ARRIVING):
        for name, (look_up, checks, phases, effects) in table.items():
            tests = ['the one in Calling'] if verb == 'gets' and name in ('DI', 'DC') else []
            parts = {'look_up': look_up, 'checks': checks, 'phases': phases, 'effects': effects, 'tests': tests}
            rules.append(Row('%s %s' % (verb, name), allowed=True, begins='Called' if verb == 'gets' else 'Calling', instead={}, **parts))
    boot = Row('boot', phases=PHASES, instead={}, tests=[])
    return {**FLOW_RULES, 'boot': boot, **{row.heading: row for row in rules}}


# ---- a link, and how it is found

class Link:
    """One end of a link. `place` is its number at its node; `own` and `far` are addresses, and `partner` the number of the partner there."""

    def __init__(self, place, rules, phase, opened):
        self.place = place
        self.phase = phase
        self.opened = opened
        self.own = self.far = self.partner = None
        self.segsize = 0
        self.is_called = False  # whether its CI was sent
        self.flow = self.new_flow(rules)

    def new_flow(self, rules):
        """Its segments."""
        return Flow(rules)

    def is_live(self):
        return self.phase != 'Ended'

    def tag(self):
        return Tag(self.place, self.partner)


class Links:
    """The links of a node with this address, to the other one. `delivered` counts what came up."""

    new_link = Link

    def __init__(self, rules, node, other):
        self.rules = rules
        self.node, self.other = node, other
        self.links = []
        self.delivered = 0

    def row(self, heading):
        """The row with this heading."""
        return self.rules[heading]

    def find(self, row, name, own=None, far=None):
        """The link that a look-up finds; a row may have another look-up in its place."""
        if name is None:
            return None
        tests = self.row('look-up ' + row['instead'].get(name, name))
        wanted = [TESTS[test] for test in tests['tests']]
        return next((link for link in self.links if all(is_so(link, own, far) for is_so in wanted)), None)

    def begin(self, row, opened):
        """A new link, in the phase of the row."""
        link = self.new_link(len(self.links), self.rules, row['begins'], opened)
        self.links.append(link)
        return link

    def give_address(self, row, link, address):
        """The link gets the address, and the one that had it loses it."""
        for other in self.links:
            if other.own == address:
                other.own = None
        link.own = address

    def go_to(self, link, phase):
        """The link is in that phase."""
        link.phase = phase
        if phase == 'Ended':
            link.flow.end()

    def ends(self, row, link):
        """A DI or a DC that came ends the link."""
        self.go_to(link, 'Ended')

    def ends_call(self, link):
        """A DC that is sent ends the call that it answers."""
        self.go_to(link, 'Ended')

    # -- a boot

    def boots(self):
        """The node boots: each link is over, and no address is anybody's last. Their numbers go on."""
        row = self.row('boot')
        for link in self.links:
            if not link.is_live():
                link.own = None
            elif link.phase in row['phases']:
                self.go_to(link, 'Ended')
                link.own = None

    # -- what the user does

    def user(self, words):
        """An event of a link: its words, and the data that are handed in or delivered."""
        verb, *words = words
        row = self.row('user ' + verb)
        far = int(words[0]) if verb in ('accept', 'reject') else None
        own = int(words[1] if far is not None else words[0])
        data = bytes.fromhex(words[1].replace('-', '')) if verb in ('in', 'up') else None
        link = self.find(row, row['look_up'], own, far)
        if not row['allowed']:
            raise Refused(19)
        for check in row['checks']:
            self.check_user(row, check, link, (own, far, data))
        for effect in row['effects']:
            if link is not None or effect == 'BeginLink':
                self.do_user(row, effect, link, own, data)

    def check_user(self, row, check, link, words):
        """A check of what the user does; `words` are the own and the far address and the data of the event."""
        own, _, data = words
        if check in ('CallIsThere', 'AddressIsLive', 'AddressWasGiven') and link is None:
            raise Refused(18)
        if check == 'AddressIsFree' and self.find(row, 'LiveAt', own) is not None:
            raise Refused(26)
        if check == 'RightPhase' and link is not None and link.phase not in row['phases']:
            raise Refused(19)
        if check == 'IsNextMessage' and not self.is_next(row, link, data):
            raise Refused(24)

    def is_next(self, row, link, data):
        """Whether the data are what may be delivered next."""
        if link is None:
            return True
        messages = [message for _, message in self.messages(row, link)]
        return data in messages[:1]

    def messages(self, row, link):
        """What came whole and may be delivered, with the number of its last segment."""
        return link.flow.whole()

    def do_user(self, row, effect, link, own, data):
        """An effect of what the user does."""
        flow = link.flow if link else None
        if effect == 'BeginLink':
            self.give_address(row, self.begin(row, opened=True), own)
        elif effect == 'GiveAddress':
            self.give_address(row, link, own)
        elif effect == 'HandIn':
            flow.handed.append(data)
        elif effect == 'GiveUp':
            self.go_to(link, 'Ended')
        elif effect == 'Deliver':
            self.delivered += 1
            flow.delivered = max([number for number, message in self.messages(row, link)[:1]], default=flow.delivered)
        else:
            self.go_to(link, effect.removeprefix('GoTo '))
