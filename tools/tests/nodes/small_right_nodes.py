"""Nodes that do nothing wrong and are refused all the same: most have a queue between NSP and DDCMP. Both ends of a line are of one kind. The words
are those of docs/REASONS.md."""
import struct

from tests.nodes import small_sessions as at
from tests.nodes.bugs import no_bug
from tests.nodes.small_node import DATA_ACK, Node, word

OTHER_ACK = 0x14


@no_bug(13, 'both ends restart at once, and a message of an earlier start arrives', at.restarted_under_way)
class RestartsUnderWay(Node):
    """No other than the right one: what is refused is the session."""


@no_bug(16, 'a router passes on a packet of a third node', at.quiet)
class PassesOn(Node):
    def hello(self):
        return bytes([2]) + word(self.peer) + word(1 << 10 | 9) + bytes([1, 8])


class Queueing(Node):
    """What NSP has composed waits in a queue until the station can send it."""

    def __init__(self, side, chance):
        self.queue = []
        super().__init__(side, chance)

    def is_done(self):
        return not self.queue and super().is_done()

    def compose(self):
        for packet in iter(super().compose, None):
            self.queue.append(packet)
        return self.queue.pop(0) if self.queue else None


@no_bug(18, 'a DI waits in a queue until the DC has arrived (see check --queued)', at.quiet)
class DisconnectWaits(Queueing):
    """The timer of a link runs out while its DI waits, so that there is a second one, behind other packets."""

    def disconnect(self, link):
        self.queue += [super().packet(super().disconnect(link)), *[self.hello()] * 8]
        return super().disconnect(link)


@no_bug(19, 'a message waits in a queue while the user closes its link (see check --queued)', at.closed_under_way)
class ClosedBeforeSent(Queueing):
    """What waits is not taken out of the queue."""


@no_bug(19, 'a user gives up a call before it is answered (`u abort` in format 3)', at.quiet)
class GivesUp(Node):
    def open(self):
        link = super().open()
        self.close(link)
        return link


@no_bug(20, 'a restart empties a queue, and a segment in it is lost before its first sending (an `x` line in format 3)', at.restarted)
class QueueEmptied(Queueing):
    def reset(self):
        super().reset()
        self.queue.clear()


@no_bug(21, 'an acknowledgement waits in a queue of its own while a later one is sent', at.quiet)
class AcknowledgesLate(Node):
    def __init__(self, side, chance):
        self.late = []
        super().__init__(side, chance)

    def come_segment(self, link, number, flag, body):
        super().come_segment(link, number, flag, body)
        self.late.append(self.packet(bytes([DATA_ACK]) + self.addresses(link) + word(0x8000 | link.received % 4096)))

    def compose(self):
        packet = super().compose()
        return self.late.pop(0) if packet is None and self.late else packet


@no_bug(23, 'segments are acknowledged only in messages of the other subchannel', at.long_message)
class AcknowledgesElsewhere(Node):
    def segment(self, link, number):
        flag, body = link.segments[number]
        return bytes([flag]) + self.addresses(link) + word(number % 4096) + body

    def data_ack(self, link):
        return bytes([OTHER_ACK]) + self.addresses(link) + word(self.ack_word_of(link) | 0x2000)

    def ack_word_of(self, link):
        return struct.unpack('<H', self.ack_word(link))[0]

    def arrive(self, packet):
        if packet[6:7] != bytes([OTHER_ACK]):
            super().arrive(packet)
            return
        own, far, number = struct.unpack('<3H', packet[7:13])
        link = self.live(own)
        if link and link.far == far:
            self.come_in_run(link, DATA_ACK, word(number & ~0x2000))


@no_bug(25, 'an address is used again while a message of its last link is under way', at.closed_by_both)
class OpensAgain(Node):
    """No other than the right one, either."""


PLAIN = RestartsUnderWay, OpensAgain
