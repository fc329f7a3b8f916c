"""Bugs in packets, in messages of NSP, and of links, and two that no rule forbids. The words are those of docs/REASONS.md."""
from tests.nodes import small_sessions as at
from tests.nodes.bugs import bug
from tests.nodes.small_node import BEGINS, CI, DC, DI, ENDS, Link, Node, word

# ---- packets


@bug(15, 'padding goes before each packet', at.quiet)
class Padded(Node):
    def packet(self, message):
        return b'\x81' + super().packet(message)


@bug(15, 'packets have the long format', at.quiet)
class LongFormat(Node):
    def packet(self, message):
        return bytes([6, 0, 0]) + b'\xaa\0\4\0' + word(self.peer) + bytes(2) + b'\xaa\0\4\0' + word(self.address) + bytes(4) + message


@bug(15, 'a length goes before the packet', at.quiet)
class LengthInFront(Node):
    def packet(self, message):
        packet = super().packet(message)
        return word(2 * len(packet)) + packet


@bug(16, 'the area is left out of an address', at.quiet)
class NoArea(Node):
    def packet(self, message):
        packet = super().packet(message)
        return packet[:3] + word(self.address & 1023) + packet[5:]


@bug(16, 'an address has its high byte first', at.quiet)
class AddressTurned(Node):
    def packet(self, message):
        packet = super().packet(message)
        return packet[:3] + packet[4:2:-1] + packet[5:]


@bug(16, 'source and destination are exchanged', at.quiet)
class NodesExchanged(Node):
    def packet(self, message):
        return bytes([2]) + word(self.address) + word(self.peer) + bytes([0]) + message


# ---- messages of NSP


@bug(17, 'an acknowledgement word lacks bit 15', at.quiet)
class NoBit15(Node):
    def data_ack(self, link):
        message = super().data_ack(link)
        return message[:-1] + bytes([message[-1] & 0x7f])


@bug(17, 'an acknowledgement word has a qualifier above 3', at.quiet)
class HighQualifier(Node):
    def data_ack(self, link):
        message = super().data_ack(link)
        return message[:-1] + bytes([message[-1] | 0x40])


@bug(17, 'a CI has a DSTADDR', at.quiet)
class ConnectToAddress(Node):
    def connect(self, link):
        return bytes([CI]) + word(link.own) + super().connect(link)[3:]


@bug(17, 'a DC has user data, as a DI may', at.quiet)
class ConfirmWithData(Node):
    def disconnect_confirm(self, far, own):
        return super().disconnect_confirm(far, own) + bytes([0])


@bug(17, 'a connect acknowledgement has a SRCADDR', at.quiet)
class AckWithSource(Node):
    def connect_ack(self, link):
        return super().connect_ack(link) + word(0)


@bug(17, 'there are three acknowledgement words', at.quiet)
class ThreeWords(Node):
    def data_ack(self, link):
        message = super().data_ack(link)
        return message + 2 * message[-2:]


@bug(17, 'messages of another protocol are sent', at.quiet)
class OtherProtocol(Node):
    def hello(self):
        return self.packet(b'\xff\0\0')


# ---- which link a message names


class Turned(Node):
    """The two addresses of some messages are exchanged; those of this node are above 100."""

    def turned(self, message):
        return message[:1] + message[3:5] + message[1:3] + message[5:]

    def free_address(self, is_opened):
        return next(own for own in range(101, 65536) if not self.live(own))


@bug(18, 'the addresses of a CC are exchanged', at.quiet)
class ConfirmTurned(Turned):
    def connect_confirm(self, link):
        return self.turned(super().connect_confirm(link))

@bug(18, 'the addresses of a segment are exchanged', at.quiet)
class DataTurned(Turned):
    def segment(self, link, number):
        return self.turned(super().segment(link, number))

@bug(18, 'data is sent before the CC has arrived', at.quiet)
class DataBeforeConfirm(Node):
    def messages(self):
        for link in self.links:
            if link.phase == 'Calling' and not link.is_owed:
                yield bytes([BEGINS | ENDS]) + self.addresses(link) + word(1) + b'early'
        yield from super().messages()


@bug(18, "a connect acknowledgement names the sender's own address", at.quiet)
class AckOfOwn(Node):
    def connect_ack(self, link):
        return super().connect_ack(link)[:1] + word(link.own)


@bug(18, 'data is sent after a DI has arrived', at.opened_while_closing)
class DataAfterEnd(Node):
    def disconnect_confirm(self, far, own):
        return bytes([BEGINS | ENDS]) + word(far) + word(own) + word(1)


@bug(18, 'a DI is repeated after the DC has arrived', at.links_again)
class DisconnectTimerRuns(Node):
    def come_disconnect(self, flag, own, far):
        super().come_disconnect(flag, own, far)
        if flag == DC:
            self.given += 1
            self.packets[self.given] = self.packet(bytes([DI]) + word(far) + word(own) + word(0))


@bug(18, 'a CI is sent though no user opened a link', at.quiet)
class CallsByItself(Node):
    def hello(self):
        return self.packet(bytes([CI]) + word(0) + word(77) + bytes([1, 2]) + word(self.SIZE))


@bug(18, 'a repeated CI is shown to the user as a new call', at.called_again)
class ShowsRepeats(Node):
    def come_connect(self, far, size):
        self.links.append(Link(0, far, 'Called', False, size))


@bug(19, 'data is sent after the CC without waiting for an answer', at.quiet)
class DataAfterConfirm(Node):
    def messages(self):
        for link in self.links:
            if link.phase == 'Confirming' and not link.is_owed:
                yield bytes([BEGINS | ENDS]) + self.addresses(link) + word(1) + b'early'
        yield from super().messages()


class SaidAgain(Node):
    """A message is sent on a link in RUN, once in place of a data acknowledgement."""

    def data_ack(self, link):
        if link.is_opened != self.of_opened or getattr(link, 'is_said', False):
            return super().data_ack(link)
        link.is_said = True
        return self.said(link)


@bug(19, 'a CI is repeated after the CC has arrived', at.quiet)
class ConnectTimerRuns(SaidAgain):
    of_opened = True

    def said(self, link):
        return self.connect(link)


@bug(19, 'a CC is repeated after an answer has arrived', at.quiet)
class ConfirmTimerRuns(SaidAgain):
    of_opened = False

    def said(self, link):
        return self.connect_confirm(link)


@bug(19, 'a DI is sent though no user closed the link', at.quiet)
class ClosesByItself(SaidAgain):
    of_opened = True

    def said(self, link):
        return self.disconnect(link)


@bug(19, 'a DC is sent instead of a DI', at.quiet)
class EndsWithConfirm(Node):
    def disconnect(self, link):
        return self.disconnect_confirm(link.far, link.own)


@bug(19, 'data is sent after the user closed the link', at.quiet)
class DataAfterClose(Node):
    def disconnect(self, link):
        return bytes([BEGINS | ENDS]) + self.addresses(link) + word(link.given + 1) + b'late'


# ---- what is not found


@bug(None, 'the addresses of a DC are exchanged', at.quiet)
class DisconnectTurned(Turned):
    def disconnect_confirm(self, far, own):
        return self.turned(super().disconnect_confirm(far, own))


@bug(None, 'a message is never sent, acknowledged or delivered', at.quiet)
class NeverSent(Node):
    def piece(self, link):
        return None

    def data_ack(self, link):
        return None if link.received else super().data_ack(link)

    def deliver(self, link, message):
        pass
