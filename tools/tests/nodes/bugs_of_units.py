"""Bugs in units, and in a driver below the recorder. The words are those of docs/REASONS.md."""
from captures import register_over
from tests.nodes import small_sessions as at
from tests.nodes.bugs import bug
from tests.nodes.small_node import Node, word
from tests.nodes.small_station import ACK, ENQ, NAK, REP, SOH

# ---- units


@bug(1, 'the two bytes of a block check are swapped', at.quiet)
class ChecksSwapped(Node):
    def check(self, field):
        checked = super().check(field)
        return checked[:-2] + checked[:-3:-1]


@bug(1, 'the check of the data is left out', at.quiet)
class NoDataCheck(Node):
    def data(self, num):
        return super().data(num)[:-2]


@bug(1, 'a block check is started at ffff', at.quiet)
class StartedAtOnes(Node):
    def check(self, field):
        return field + word(register_over(field, 0xffff))


@bug(1, 'COUNT counts the check bytes too', at.quiet)
class CountsChecks(Node):
    def header(self, count, num):
        return super().header(count + 2, num)


@bug(1, 'COUNT has its high byte first', at.quiet)
class CountTurned(Node):
    def header(self, count, num):
        return bytes([SOH, count >> 8, count & 255, self.resp(), num % 256, 1])


@bug(1, 'ADDR is 0', at.quiet)
class NoAddress(Node):
    def control(self, kind, subtype=0, resp=0, num=0):
        return self.check(bytes([ENQ, kind, subtype, resp, num, 0]))


@bug(1, 'an ACK carries NUM', at.quiet)
class AckWithNum(Node):
    def say_ack(self):
        self.say(self.control(ACK, 0, self.resp(), self.given % 256 or 1))


@bug(1, 'a REP carries RESP', at.lossy)
class RepWithResp(Node):
    def say_rep(self):
        self.say(self.control(REP, 0, self.resp() or 1, self.given % 256))


@bug(1, 'a NAK has an unknown reason', at.lossy)
class NakWithoutReason(Node):
    def say_nak(self, reason):
        self.say(self.control(NAK, 0, self.resp()))


@bug(1, 'an empty data message is sent as a keep-alive', at.lossy)
class EmptyData(Node):
    def say_rep(self):
        self.say(self.check(bytes([SOH, 0, 0, self.resp(), self.next % 256, 1])))


@bug(1, 'a maintenance message (MOP) is sent', at.quiet)
class Maintenance(Node):
    def start(self):
        super().start()
        self.say(self.check(bytes([0x90, 1, 0, 0, 0, 1])) + self.check(b'\x08'))


# ---- the driver, below the recorder: the receipt at the other end is named


@bug(2, 'the driver sends a unit twice', at.quiet, at_peer=True)
class SentTwice(Node):
    def transmit(self, number, unit):
        super().transmit(number, unit)
        if number % 5 == 4:
            super().transmit(number, unit)


@bug(2, 'the driver sends an ACK before data that waits', at.many_hellos, at_peer=True)
class Overtaken(Node):
    def transmit(self, number, unit):
        at_end = unit[0] == SOH or not self.out or self.out[-1][1][0] != SOH
        self.out.insert(len(self.out) - (not at_end), (number, unit))


@bug(5, 'a buffer is reused while its unit waits in the driver', at.many_hellos, at_peer=True)
class Overwritten(Node):
    def transmit(self, number, unit):
        if self.out:
            self.out[-1] = self.out[-1][0], unit
        super().transmit(number, unit)


@bug(5, 'the driver updates RESP in a unit that waits', at.many_hellos, at_peer=True)
class RespRefreshed(Node):
    def transmit(self, number, unit):
        super().transmit(number, unit)
        for place, (each, old) in enumerate(self.out):
            if old[0] == SOH:
                header = old[:3] + bytes([self.resp()]) + old[4:6]
                self.out[place] = each, self.check(header) + old[8:]
