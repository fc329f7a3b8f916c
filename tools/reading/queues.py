"""The links of a node whose packets wait between NSP and DDCMP, both ways. Of such a node it can't be seen when NSP acted on a packet that was kept,
nor when it composed a message that is sent. So a link goes on after its end, and says what it may have composed before. Each arrival acts at its
record: what a node can have done by acting later, it can have done by acting at once. The rows here take the place of those of
tools/reading/links.py; the others are the same. A part of tools/reading/judging.py, which judges pairs apart from the program.

After a boot nothing waits any more: it leaves a link dead. A call is given up where all that came for it was acted on. Its CI may have been composed
before that, and is all that may be sent of it: the link is ending, and no longer its user's.

A link knows besides: whether it `ran`, that is has been in RUN; whether it was `accepted` by its user; whether he has `given_up` his call; what it
`said`, 1 once a message of RUN was sent and 2 once a DI was; and how it is: live; ending, once a DI, a DC or its user ended it; or dead. Its phase
stays what it was at its end. It is dead when
a DC was sent from its address or its address is given again: then nothing of it waits any more."""
from reading.flow import Flow, distance, wire
from reading.links import ARRIVING, IN_RUN, LINK, NODES, OF_SEGMENTS, PHASES, TESTS, USER, Link, Links
from reading.rows import Row

# the tests of each look-up
LOOK_UPS = {
    'LiveAt': ['own', 'live'],
    'TheLink': ['own', 'far', 'live'],
    'LiveTo': ['far', 'live'],
    'CallingAt': ['own', 'calling', 'live'],
    'CalledBy': ['far', 'called', 'live'],
    'ActedOn': ['own', 'far', 'connected', 'live'],
    'UsedAt': ['own', 'not dead', 'not given up'],
    'StillAt': ['own', 'not dead'],
    'StillOpenedAt': ['own', 'opened', 'not dead'],
    'StillTheLink': ['own', 'far', 'not dead'],
    'StillBegunBy': ['far', 'begun by a CI', 'not dead'],
}
TESTS['not dead'] = lambda link, own, far: not link.is_dead()
TESTS['not given up'] = lambda link, own, far: not link.given_up

# what the user does: the look-up of the link, the checks in their order, the phases, and the effects
ANSWERED = {'accept': ['GiveAddress', 'GoTo Confirming', 'Accept'], 'reject': ['GiveAddress', 'GoTo DI']}
QUEUED_USER = {
    'open': USER['open'],
    **{verb: (*USER[verb][:3], effects) for verb, effects in ANSWERED.items()},
    **{verb: ('UsedAt', *USER[verb][1:]) for verb in ('in', 'close', 'abort')},
}

# What may be sent: the look-up, the checks, the phases, how much the link may have said, and the effects. The phases of a CI are those of all links
# that were opened here, those of a CC of all that were accepted, and those of a message of RUN of all that ran.
RAN = LINK + ['HasRun', 'RightPhase', 'SaidAtMost']
QUEUED_SENDING = {
    'CI': ('StillOpenedAt', LINK + ['RightPhase', 'SaidAtMost'], ['Calling', 'RUN', 'DI'], 0, ['NoteCall']),
    'connect ack': ('StillBegunBy', LINK, PHASES, 2, []),
    'CC': ('StillTheLink', LINK + ['IsAccepted', 'RightPhase', 'SaidAtMost'], ['Confirming', 'RUN', 'DI'], 0, []),
    'DI': ('StillTheLink', LINK + ['RightPhase'], ['DI'], 2, ['Say 2']),
    'DC': ('TheLink', NODES + ['NoLink'], [], 2, ['EndWaiting', 'EndCalled']),
    'segment': ('StillTheLink', RAN + OF_SEGMENTS, ['RUN', 'DI'], 1, ['MoveLast', 'GiveNumber', 'Say 1']),
    'data ack': ('StillTheLink', RAN + ['WordsAreRight'], ['RUN', 'DI'], 1, ['MoveLast', 'Say 1']),
    **{name: ('StillTheLink', RAN, ['RUN', 'DI'], 1, ['Say 1']) for name in ('link service', 'interrupt', 'other-data ack')},
}

# what an arrival does, of these
ARRIVALS = ['CI', 'CC', 'DI', 'DC'] + IN_RUN


def queue_rules():
    """The rows of links with queues, by heading."""
    rules = [Row('queued look-up ' + name, tests=tests) for name, tests in LOOK_UPS.items()]
    for name, (look_up, checks, phases, effects) in QUEUED_USER.items():
        parts = {'look_up': look_up, 'checks': checks, 'phases': phases, 'effects': effects, 'begins': 'Calling'}
        rules.append(Row('queued user ' + name, allowed=True, instead={}, tests=[], **parts))
    for name, (look_up, checks, phases, most, effects) in QUEUED_SENDING.items():
        parts = {'look_up': look_up, 'checks': checks, 'phases': phases, 'most': most, 'effects': effects}
        rules.append(Row('queued sends ' + name, allowed=True, instead={}, tests=[], **parts))
    for name in ARRIVALS:
        look_up, checks, phases, effects = ARRIVING[name]
        parts = {'look_up': look_up, 'checks': checks, 'phases': phases, 'effects': effects, 'begins': 'Called'}
        rules.append(Row('queued gets ' + name, allowed=True, instead={}, tests=['the one in Calling'] if name in ('DI', 'DC') else [], **parts))
    return {row.heading: row for row in rules}


class QueuedFlow(Flow):
    """The segments of such a link. New segments wait in a list of their own and may be overtaken by acknowledgements, so a word of one may also name
    a number below the last one sent: not below `named`, which an earlier new segment named, and at most 2,047 below the last one."""

    def __init__(self, rules):
        super().__init__(rules)
        self.named = 0

    def may_name(self, row, start, back, bearer):
        if bearer != 'a new segment':
            return super().may_name(row, start, back, bearer)
        return back <= 2047 and start - back >= self.named

    def judged(self, row, start, word, bearer):
        last = super().judged(row, start, word, bearer)
        if bearer == 'a new segment':
            self.named = last - distance(row, word & 0x0fff, wire(row, last))
        return last


class QueuedLink(Link):
    """One end of a link with queues."""

    def __init__(self, place, rules, phase, opened):
        super().__init__(place, rules, phase, opened)
        self.ran = self.accepted = self.given_up = False
        self.said, self.end = 0, 'live'

    def new_flow(self, rules):
        return QueuedFlow(rules)

    def is_live(self):
        return self.end == 'live'

    def is_dead(self):
        return self.end == 'dead'

    def says(self, step):
        """It sent a message of RUN, 1, or a DI, 2; or shows that nothing from before waits."""
        self.said = max(self.said, step)


class QueuedLinks(Links):
    """The links of a node with queues."""
    new_link = QueuedLink

    def row(self, heading):
        """The row with this heading, where links with queues have one of their own, and else that of all links."""
        return self.rules['queued ' + heading if 'queued ' + heading in self.rules else heading]

    def give_address(self, row, link, address):
        """The link gets the address. Nothing waits any more of the one that had it."""
        for other in self.links:
            if other.own == address and not other.is_live():
                other.end = 'dead'
        super().give_address(row, link, address)

    def go_to(self, link, phase):
        super().go_to(link, phase)
        link.ran = link.ran or phase == 'RUN'

    def ends(self, row, link):
        """A DI or a DC ends the link: it goes on until nothing of it waits any more."""
        link.end = 'ending'
        link.flow.end()

    def ends_call(self, link):
        link.end = 'dead'

    def ends_waiting(self, row, message):
        """A DC is sent. It is no answer that waited, so what came for its address was acted on, and nothing from before that waits: a link that
        is ending is dead, and a live one has said what its phase shows."""
        link = self.find(row, 'StillAt', message.source)
        if link is None:
            return
        if not link.is_live():
            link.end = 'dead'
        elif link.phase == 'RUN':
            link.says(1)
        elif link.phase == 'DI':
            link.says(2)

    def boots(self):
        for link in self.links:
            link.end = 'dead'
            link.own = None

    def do_user(self, row, effect, link, own, data):
        if effect == 'Accept':
            link.accepted = True
        elif effect == 'GiveUp':
            link.end, link.given_up = 'ending', True
        else:
            super().do_user(row, effect, link, own, data)
