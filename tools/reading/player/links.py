"""The links of an end of the player, as the pages PLAYER and LINKS say them, with numbers modulo 4,096: what they owe, what they send, and what
the user does."""
from reading.player.units import CONNECT, PIECE, addressed, word

# segments that may be outstanding
WINDOW = 2047

# what a link owes, in the order in which it goes, and segments after that
ORDER = ['connect ack', 'CI', 'CC', 'DI', 'data ack', 'segment']


class Link:
    """One link. `handed` is what is in no segment yet, with whether the first of it was begun; `given` are the segments that are not acknowledged,
    by number, and `gone` the numbers of those that went in the present go; `parts` are the pieces of the message that is not whole yet."""

    def __init__(self, phase, own=0, far=0):
        self.phase, self.own, self.far = phase, own, far
        self.is_opened_here = phase == 'Calling'
        self.has_sent_ci = False
        self.owed = set()
        self.handed, self.is_begun = [], False
        self.given, self.highest, self.gone = {}, 0, set()
        self.acknowledged = self.received = 0
        self.held, self.parts = {}, b''

    def is_live(self):
        return self.phase != 'Ended'


class Links:
    """All links of an end, in the order in which they began, and the DCs that it owes: each a far address, an own address and a reason."""

    def __init__(self):
        self.links, self.confirms = [], []
        self.last_address = 0

    def enter(self, link, phase):
        """The link is in another phase, and what it owed in that which it left is dropped."""
        link.owed.clear()
        link.phase = phase

    def at(self, own):
        """The live link with this own address, or None."""
        for link in self.links:
            if link.own == own and link.is_live():
                return link
        return None

    # ---- what the user does: whether it can be done

    def open(self):
        """A new link in Calling."""
        if not self.has_address():
            return None
        self.links.append(Link('Calling', self.next_address()))
        self.links[-1].owed.add('CI')
        return self.links[-1].own

    def has_address(self):
        """Whether an address is left."""
        return self.last_address < 65535

    def next_address(self):
        """The next own address."""
        self.last_address += 1
        return self.last_address

    def called_by(self, far):
        """The link in Called with this far address, or None."""
        for link in self.links:
            if link.phase == 'Called' and link.far == far:
                return link
        return None

    def answer(self, far, is_accepted):
        """The call is accepted or rejected; None where no call has this address, 0 where no address is left."""
        link = self.called_by(far)
        if link is None:
            return None
        if not self.has_address():
            return 0
        self.enter(link, 'Confirming' if is_accepted else 'DI')
        link.own = self.next_address()
        link.owed.add('CC' if is_accepted else 'DI')
        return link.own

    def hand_in(self, own, message):
        """A message is handed in."""
        link = self.at(own)
        if link is None or link.phase not in ('Calling', 'Confirming', 'RUN'):
            return False
        link.handed.append(message)
        return True

    def close(self, own):
        """A link is closed."""
        link = self.at(own)
        if link is None or link.phase not in ('Confirming', 'RUN'):
            return False
        self.enter(link, 'DI')
        link.owed.add('DI')
        return True

    def abort(self, own):
        """A call is given up."""
        link = self.at(own)
        if link is None or link.phase != 'Calling':
            return False
        self.enter(link, 'Ended')
        return True

    def retry(self, own):
        """The timer of a link runs out."""
        link = self.at(own)
        if link is None or link.phase == 'Ended':
            return False
        owes = {'Calling': 'CI', 'Confirming': 'CC', 'DI': 'DI'}.get(link.phase)
        if owes is None:
            link.gone = set()
        else:
            link.owed.add(owes)
        return True

    # ---- what is sent

    def packet(self):
        """The next message that they have, or None. What it says is owed no more."""
        return self.confirm() or self.part_of_links()

    def confirm(self):
        """The DC that goes first, or None."""
        if not self.confirms:
            return None
        far, own, reason = self.confirms.pop(0)
        return addressed(0x48, far, own, word(reason))

    def part_of_links(self):
        """What the first link that has anything sends, or None."""
        for link in self.links:
            message = self.part_of(link) if link.is_live() else None
            if message is not None:
                return message
        return None

    def part_of(self, link):
        """What this link sends next, or None."""
        for thing in ORDER:
            message = self.segment(link) if thing == 'segment' else self.owed_part(link, thing)
            if message is not None:
                return message
        return None

    def owed_part(self, link, thing):
        """This message of the link, if it is owed, or None."""
        if thing not in link.owed:
            return None
        link.owed.discard(thing)
        own, far = link.own, link.far
        if thing == 'connect ack':
            return bytes([0x24]) + word(far)
        if thing == 'CI':
            flag = 0x68 if link.has_sent_ci else 0x18
            link.has_sent_ci = True
            return addressed(flag, 0, own, CONNECT)
        if thing == 'CC':
            return addressed(0x28, far, own, CONNECT + b'\0')
        if thing == 'DI':
            return addressed(0x38, far, own, word(0) + b'\0')
        return addressed(4, far, own, word(0x8000 | link.received % 4096))

    def segment(self, link):
        """A segment that the link sends, or None: one again, or a new one."""
        if link.phase != 'RUN':
            return None
        again = [number for number in link.given if number not in link.gone]
        if again:
            link.gone.add(again[0])
            return self.segment_bytes(link, again[0])
        if not link.handed or len(link.given) >= WINDOW:
            return None
        link.highest = (link.highest + 1) % 4096
        link.given[link.highest] = self.next_piece(link)
        link.gone.add(link.highest)
        return self.segment_bytes(link, link.highest)

    def segment_bytes(self, link, number):
        """The segment with this number: its flags, and its piece."""
        flag, piece = link.given[number]
        return addressed(flag, link.far, link.own, word(number) + piece)

    def next_piece(self, link):
        """The next piece of what was handed in, and its flags: whether it begins its message, and whether it ends it."""
        message = link.handed[0]
        piece, rest = message[:PIECE], message[PIECE:]
        begins, ends = not link.is_begun, not rest
        if ends:
            link.handed.pop(0)
        else:
            link.handed[0] = rest
        link.is_begun = not ends
        return 0x20 * begins | 0x40 * ends, piece
