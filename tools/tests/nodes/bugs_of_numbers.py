"""Bugs in the numbers of data messages, NUM and RESP. The words are those of docs/REASONS.md."""
from tests.nodes import small_sessions as at
from tests.nodes.bugs import bug
from tests.nodes.small_node import Node
from tests.nodes.small_station import ACK, NAK, NO_BUFFER, REP, SOH

# ---- NUM


@bug(7, 'the first data message has number 0', at.quiet)
class FromZero(Node):
    def header(self, count, num):
        return super().header(count, num - 1)


@bug(7, 'after number 255 comes 1', at.many_hellos)
class SkipsZero(Node):
    def header(self, count, num):
        return super().header(count, (num - 1) % 255 + 1)


@bug(7, 'NUM goes on after a restart', at.restarted)
class NumbersGoOn(Node):
    before = 0

    def reset(self):
        self.before += getattr(self, 'given', 0)
        super().reset()

    def header(self, count, num):
        return super().header(count, num + self.before)


@bug(7, 'the retransmission state is not reset at a start', at.restarted_and_lost)
class MarkGoesOn(Node):
    is_marked = False

    def come_nak(self, resp):
        super().come_nak(resp)
        self.is_marked = self.next <= self.given

    def send(self):
        sent = super().send()
        if self.is_marked and self.next > self.given:
            self.is_marked = False
            self.next = self.acknowledged + 1 if self.given == 1 else self.next
        return sent


@bug(7, 'a timer sends data again, without a NAK', at.lossy)
class TimerSendsData(Node):
    def timer(self):
        if self.state == 'RUNNING':
            self.next = self.acknowledged + 1
        else:
            super().timer()


@bug(7, 'after a NAK only one packet is sent again', at.lossy)
class OneAgain(Node):
    resume = None

    def come_nak(self, resp):
        before = self.next
        super().come_nak(resp)
        if self.next + 1 < before:
            self.say(self.data(self.next))
            self.next = before


@bug(7, 'a NAK is ignored', at.lossy)
class NakPassedOver(Node):
    def come_nak(self, resp):
        self.respond(resp)


@bug(7, 'RESP of a NAK acknowledges nothing', at.lossy)
class NakAcknowledgesNothing(Node):
    def come_nak(self, resp):
        self.next = self.acknowledged + 1


@bug(7, 'REP asks for the next number', at.lossy)
class RepAsksNext(Node):
    def say_rep(self):
        self.say(self.control(REP, 0, 0, (self.given + 1) % 256))


@bug(7, 'REP asks for the first unacknowledged one', at.lossy)
class RepAsksFirst(Node):
    def say_rep(self):
        self.say(self.control(REP, 0, 0, (self.acknowledged + 1) % 256))


# ---- RESP


@bug(8, 'a whole frame is kept and sent again with its old RESP', at.lossy)
class FramesKept(Node):
    frames = ()

    def reset(self):
        super().reset()
        self.frames = {}

    def data(self, num):
        return self.frames.setdefault(num, super().data(num))


@bug(8, 'RESP is the next expected number', at.quiet)
class RespIsNext(Node):
    def resp(self):
        return (self.received + 1) % 256


@bug(8, 'RESP of data messages is always 0', at.quiet)
class RespOnlyInAcks(Node):
    def header(self, count, num):
        return bytes([SOH, count & 255, count >> 8, 0, num % 256, 1])


@bug(8, 'RESP counts a message after a gap', at.lossy)
class RespOverGap(Node):
    def come_out_of_order(self, num):
        ahead = (num - self.received) % 256
        if ahead < 128:
            self.say(self.control(ACK, 0, num))


@bug(8, 'RESP counts a message that found no buffer', at.lossy)
class RespUnbuffered(Node):
    def come_unbuffered(self):
        self.say(self.control(NAK, NO_BUFFER, (self.received + 1) % 256))


@bug(8, 'RESP counts a damaged message', at.lossy)
class RespDamaged(Node):
    def come_damaged(self, reason):
        self.say(self.control(NAK, reason, (self.received + 1) % 256))


@bug(8, 'RESP goes on after a restart', at.restarted)
class RespGoesOn(Node):
    before = 0

    def reset(self):
        self.before += getattr(self, 'received', 0)
        super().reset()

    def resp(self):
        return (self.received + self.before) % 256


@bug(8, 'RESP is counted modulo 128', at.many_hellos)
class Modulo128(Node):
    def resp(self):
        return self.received % 128
