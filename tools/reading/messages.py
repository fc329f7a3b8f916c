"""What the links of a node do with the messages that are sent and that come: the checks and effects that the tables of tools/reading/links.py
name. A part of tools/reading/judging.py, which judges pairs apart from the program."""
from reading.links import NO_TAG
from reading.rows import Refused

# ---- what is sent

class Sending:
    """A message that a node sends, with the link by whose row it goes. `number` is that of a segment."""

    def __init__(self, links, message):
        self.links = links
        self.message = message
        self.row = links.row('sends ' + message.kind)
        self.link = links.find(self.row, self.row['look_up'], message.source, message.destination)
        self.number, self.is_new, self.last = None, False, None
        if message.kind == 'segment' and self.link:
            self.number, self.is_new = self.link.flow.number_of(self.row, message.segnum)

    def checked(self, packet):
        """Makes the checks of the row, in their order."""
        if not self.row['allowed']:
            raise Refused(19)
        for check in self.row['checks']:
            if check == 'BetweenNodes':
                between_nodes(self.row, packet, self.links.node, self.links.other)
            elif check == 'NoLink':
                if self.link is not None and self.link.phase not in self.row['phases']:
                    raise Refused(19)
            elif check == 'LinkIsThere':
                if self.link is None:
                    raise Refused(18)
            elif self.link is not None:
                self.check(check)

    def check(self, name):
        """A check of the message of a link that is there."""
        passed, reason = CHECKS[name]
        if not passed(self):
            raise Refused(reason)

    def done(self):
        """Does the effects of the row. The tag of the message."""
        tag_link = self.link if self.message.kind != 'DC' else None
        for effect in self.row['effects']:
            if effect == 'EndCalled':
                tag_link = self.end_called()
            elif effect == 'EndWaiting':
                self.links.ends_waiting(self.row, self.message)
            elif self.link is not None:
                self.do(effect)
        return tag_of(self.row, tag_link)

    def end_called(self):
        """A DC from address 0 ends the call that it answers."""
        if self.message.source != 0:
            return None
        link = self.links.find(self.row, 'CalledBy', far=self.message.destination)
        if link is not None:
            self.links.ends_call(link)
        return link

    def do(self, effect):
        """An effect on the link of the message."""
        flow = self.link.flow
        if effect == 'NoteCall':
            self.link.is_called = True
        elif effect == 'MoveLast':
            if self.last is not None:
                flow.last = self.last
        elif effect == 'GiveNumber':
            if self.is_new:
                flow.give(self.row, self.message.flag, self.message.body)
        elif effect.startswith('Say '):
            self.link.says(int(effect.removeprefix('Say ')))
        else:
            self.links.go_to(self.link, effect.removeprefix('GoTo '))


def tag_of(row, link):
    """The tag of a message by whose row this link goes."""
    return NO_TAG if link is None else link.tag()


def between_nodes(row, packet, source, destination):
    """The packet goes from the one node to the other."""
    if (packet.source, packet.destination) != (source, destination):
        raise Refused(16)


# ---- the checks of a message of a link that is there: whether it is passed, and the reason where not

def right_phase(sending):
    return sending.link.phase in sending.row['phases']


def words_are_right(sending):
    """A word that is wrong is a Refused. Notes what the words leave as the last one sent."""
    bearer = 'a data ack' if sending.message.kind == 'data ack' else 'a new segment' if sending.is_new else 'a repeat'
    sending.last = sending.link.flow.words_sent(sending.message.words, bearer)
    return True


def room_in_window(sending):
    return not sending.is_new or sending.link.flow.room_in_window(sending.row)


def fits_segsize(sending):
    return not sending.is_new or len(sending.message.body) <= sending.link.segsize


def next_piece(sending):
    return not sending.is_new or sending.link.flow.next_piece(sending.row, sending.message.flag, sending.message.body)


def one_of_the_last(sending):
    return sending.is_new or sending.link.flow.one_of_the_last(sending.row, sending.number)


def as_first_given(sending):
    message = sending.message
    return sending.is_new or sending.link.flow.as_first_given(sending.row, sending.number, message.flag, message.body)


CHECKS = {
    'RightPhase': (right_phase, 19),
    'HasRun': (lambda sending: sending.link.ran, 19),
    'IsAccepted': (lambda sending: sending.link.accepted, 19),
    'SaidAtMost': (lambda sending: sending.link.said <= sending.row['most'], 19),
    'WordsAreRight': (words_are_right, 21),
    'RoomInWindow': (room_in_window, 23),
    'FitsSegsize': (fits_segsize, 22),
    'NextPiece': (next_piece, 20),
    'OneOfTheLast': (one_of_the_last, 20),
    'AsFirstGiven': (as_first_given, 20),
}


def sends(links, packet, message):
    """A node sends this message in this packet. Its tag."""
    sending = Sending(links, message)
    sending.checked(packet)
    return sending.done()


# ---- what comes

def gets(links, packet, message, tag):
    """This message comes to a node in this packet, with this tag."""
    row = links.row('gets ' + message.kind)
    between_nodes(row, packet, links.other, links.node)
    if message.kind == 'CI':
        return gets_call(links, row, message, tag)
    link = links.find(row, row['look_up'], message.destination, message.source)
    if link is None and 'the one in Calling' in row['tests']:
        link = links.find(row, 'CallingAt', message.destination)
    if link is None or not row['allowed'] or link.phase not in row['phases']:
        return None
    if not all(fits(row, link, tag, check) for check in row['checks']):
        raise Refused(25)
    return act(links, row, link, message, tag)


def fits(row, link, tag, check):
    """Whether the sender is the partner of this link, or this link that of the sender. A tag without a link fits nobody."""
    if tag.link is None:
        return False
    return link.partner == tag.link if check == 'SenderIsPartner' else tag.partner == link.place


def act(links, row, link, message, tag):
    """Does the effects of a row on the link that acts on the message."""
    for effect in row['effects']:
        if effect == 'EndLink':
            links.ends(row, link)
        elif effect == 'TakeWords':
            link.flow.words_come(message.words)
        elif effect == 'TakeSegment':
            link.flow.segment_comes(message.segnum, message.flag, message.body)
        elif effect.startswith('GoTo '):
            links.go_to(link, effect.removeprefix('GoTo '))
        else:
            learn(effect, link, message, tag)


def learn(effect, link, message, tag):
    """What a CI or a CC tells of the other end."""
    if effect == 'the far address':
        link.far = message.source
    elif effect == 'the partner':
        link.partner = tag.link
    elif effect == 'SEGSIZE':
        link.segsize = message.segsize


def gets_call(links, row, message, tag):
    """A CI comes."""
    if links.find(row, row['look_up'], far=message.source) is not None or 'BeginLink' not in row['effects']:
        return
    link = links.begin(row, opened=False)
    for effect in row['effects'][1:]:
        learn(effect, link, message, tag)
