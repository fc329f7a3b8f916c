"""A recorder for a node's own code. It writes the capture that `ddcap check` and `ddcap alone` judge (docs/CAPTURES.md).

    recorder = Recorder(open('node.a', 'w', newline='\\n'), '1.1', '1.2')
    recorder.user('start')                   the user's event, when the node acts on it; also 'halt', 'open', 1 and so on
    recorder.sent(unit)                      when the station decides on the unit, before the unit waits in a queue for the line
    recorder.received(unit, number)          when the station acts on a unit that arrived
    recorder.kept(unit, number)              the same, if the station accepts the packet in it and counts its number
    recorder.noise()                         when a block check showed bytes that are not a unit of the peer
    recorder.user('in', 1, message=b'hello') before the units that carry the message; 'up' when it is delivered

A unit is header, data and checks as they passed, without SYN and pads. `number` says which of the peer's units this is, counted from 0 over all that
the peer sent. Without it the next one is meant: that is right if no unit was lost, and enough for `alone`.

If the node starts anew, gives up a call, or loses packets inside, its capture has to say so, in format 3: Recorder(.., form=3). That one also takes

    recorder.user('boot')                    when the whole node starts anew; 'start' follows
    recorder.user('abort', 1)                when a call that was not answered is given up, and nothing is sent for it
    recorder.dropped(unit, number)           in place of `kept`, if the packet is lost inside the node before NSP meets it
    recorder.composed(packet)                a packet that will never be sent, before `sent` of those that are composed later
    recorder.user('interrupt', 1, message=b'x') and 'interrupted': an interrupt of at most 16 bytes is handed in, or delivered

If the line already runs when you switch the recorder on, use Recorder(.., form=4). Its head says that this is a part of a run, which
`ddcap check --line` and `alone --line` judge, and it has the lines of format 3. `number` counts from where the peer's recorder was switched on,
and is BEFORE for a unit that was sent before that. Without it that is meant too, until a number was given: that is enough for `alone`.

A call that can't be a line of the capture's format is a ValueError, and writes nothing.

If you call it otherwise the pair is refused: `received` for a packet that was kept (8), a unit with SYN in front (1), no `number` though a unit was
lost (5), `sent` only when the line has taken the unit (4, 6, 8), and no `sent` for a unit that is sent again (4, 5)."""
import re

# of each event how many link addresses it has, the most bytes of its message, if it has one, and the first format that has it, where not all do
EVENTS = {'start': (0, None, 1), 'halt': (0, None, 1), 'open': (1, None, 1), 'accept': (2, None, 1), 'reject': (2, None, 1), 'close': (1, None, 1),
          'in': (1, 65_535, 1), 'up': (1, 65_535, 1),
          'boot': (0, None, 3), 'abort': (1, None, 3), 'interrupt': (1, 16, 3), 'interrupted': (1, 16, 3)}
MOST_OF_UNIT, MOST_OF_PACKET, MOST_UNITS, MOST_LINKS = 16_393, 16_383, 10 ** 18, 65_535
PART = 4  # the format of a part of a run
BEFORE = '-'  # there the number of a unit that was sent before the peer's capture begins
NODE = re.compile(r'([1-9]\d?)\.([1-9]\d{0,3})', re.ASCII)


class Recorder:
    def __init__(self, file, own, peer, form=2):
        if form not in (1, 2, 3, PART):
            raise ValueError('no format of captures: %r' % (form,))
        self.file, self.form, self.next = file, form, BEFORE if form == PART else 0
        self.line('ddcap %d %s %s%s' % (form, node(own), node(peer), ' part' if form == PART else ''))

    def sent(self, unit):
        self.line('s ' + digits(unit, MOST_OF_UNIT))

    def received(self, unit, number=None):
        self.receipt('r', unit, number)

    def kept(self, unit, number=None):
        self.receipt('k', unit, number)

    def dropped(self, unit, number=None):
        self.needs(3, 'a packet that is dropped')
        self.receipt('d', unit, number)

    def composed(self, packet):
        self.needs(3, 'a packet that is never sent')
        self.line('x ' + digits(packet, MOST_OF_PACKET))

    def noise(self, what=b''):
        self.line('n ' + digits(what, MOST_OF_UNIT))

    def user(self, event, *addresses, message=None):
        count, most, form = EVENTS.get(event, (None, None, 1))
        if count != len(addresses) or (most is None) != (message is None):
            raise ValueError('no event of a user: %s %s' % (event, addresses))
        self.needs(form, event)
        links = [whole(address, 1, MOST_LINKS) for address in addresses]
        content = [] if most is None else [digits(message, most)]
        self.line(' '.join(['u', event, *links, *content]))

    def receipt(self, letter, unit, number):
        number = self.next if number is None else number
        self.line('%s %s %s' % (letter, self.hint(number), digits(unit, MOST_OF_UNIT)))
        self.next = self.next if number == BEFORE else number + 1

    def hint(self, number):
        if self.form == PART:
            return '-' if number == BEFORE else whole(number, 0, MOST_UNITS - 2)
        whole(number, 0, MOST_UNITS - 1)
        return '%d' % (number - self.next if self.form == 2 else number)

    def needs(self, form, what):
        if self.form < form:
            raise ValueError('%s needs format %d, and this capture has format %d' % (what, form, self.form))

    def line(self, words):
        self.file.write(words + '\n')
        self.file.flush()  # so that nothing is missing if the node crashes


def whole(number, least, most):
    if not isinstance(number, int) or not least <= number <= most:
        raise ValueError('no number from %d to %d: %r' % (least, most, number))
    return '%d' % number


def node(address):
    found = NODE.fullmatch(str(address))
    if not found or int(found[1]) > 63 or int(found[2]) > 1023:
        raise ValueError('no address of a node, such as 1.1: %r' % (address,))
    return found[0]


def digits(what, most):
    if what is None or isinstance(what, (int, str)):
        raise ValueError('no bytes: %r' % (what,))
    what = bytes(what)
    if len(what) > most:
        raise ValueError('%d bytes are more than %d' % (len(what), most))
    return what.hex() or '-'
