"""Other bugs of stations. The words are those of docs/REASONS.md."""
import struct

from tests.nodes import small_sessions as at
from tests.nodes.bugs import bug
from tests.nodes.small_node import Node
from tests.nodes.small_station import BAD_HEADER, ENQ, NAK, REP, SOH, STACK, STRT

# ---- which messages a state allows


@bug(6, 'data is sent before the start is complete', at.starts)
class DataEarly(Node):
    def send(self):
        state = self.state
        if state == 'ASTRT':
            self.state = 'RUNNING'
        sent = super().send()
        if state == 'ASTRT':
            self.state = state
        return sent


@bug(6, 'a STRT is answered with an ACK', at.starts)
class AckForStrt(Node):
    def say_stack(self):
        self.say_ack()


@bug(6, 'STRT is repeated after a STRT has arrived', at.starts)
class StrtGoesOn(Node):
    def say_stack(self):
        self.say_strt()


@bug(6, 'the startup timer still runs after the start', at.many_hellos)
class StartTimerRuns(Node):
    def send(self):
        if self.state == 'RUNNING' and self.given == 5:
            self.say_stack()
        return super().send()


@bug(6, 'a STRT in RUNNING is ignored', at.one_restarts)
class StrtPassedOver(Node):
    def come_strt(self):
        if self.state != 'RUNNING':
            super().come_strt()


@bug(6, 'a STRT in RUNNING is answered with a STACK', at.one_restarts)
class StackInRunning(Node):
    def come_strt(self):
        if self.state == 'RUNNING':
            self.reset()
            self.say_stack()
        else:
            super().come_strt()


@bug(6, 'the REP timer still runs when all is acknowledged', at.many_hellos)
class RepTimerRuns(Node):
    def respond(self, resp):
        super().respond(resp)
        if self.given == self.acknowledged > 0:
            self.say_rep()


# ---- packets that are unacknowledged, and packets that are sent again


@bug(9, 'there is no limit on unacknowledged packets', at.burst)
class NoWindow(Node):
    def may_give(self):
        return True


@bug(9, '256 packets may be unacknowledged', at.burst)
class Window256(Node):
    def may_give(self):
        return self.given - self.acknowledged < 256


class Changing(Node):
    """Before a packet is sent again it changes."""

    def data(self, num):
        if num < self.given:
            self.packets[num] = self.changed(self.packets[num])
        return super().data(num)


@bug(10, 'FORWARD is counted up again', at.lossy)
class ForwardRises(Changing):
    def changed(self, packet):
        return packet[:5] + bytes([packet[5] + 1]) + packet[6:] if packet[0] == 2 else packet


@bug(10, 'a packet is composed again with a newer acknowledgement number', at.lossy)
class ComposedAnew(Changing):
    def changed(self, packet):
        if packet[0] != 2 or packet[6] != 4:
            return packet
        link = self.live(struct.unpack('<H', packet[9:11])[0])
        return packet[:11] + struct.pack('<H', 0x8000 | link.received) if link else packet


@bug(10, 'the buffer of an unacknowledged packet is reused', at.lossy)
class BufferReused(Changing):
    def changed(self, packet):
        return self.packets[self.given]


@bug(10, 'an urgent packet takes over a number', at.lossy)
class MoreUrgent(Changing):
    def changed(self, packet):
        return self.hello()


# ---- causes of a NAK


@bug(11, 'two NAKs answer one damaged unit', at.lossy)
class NakTwice(Node):
    def come_damaged(self, reason):
        self.say_nak(reason)
        self.say_nak(reason)


@bug(11, 'damaged data is answered with reason 1', at.lossy)
class OneReason(Node):
    def come_damaged(self, reason):
        self.say_nak(BAD_HEADER)


@bug(11, 'data after a gap is answered with a NAK', at.lossy)
class NakForGap(Node):
    def come_out_of_order(self, num):
        self.say_nak(3)


@bug(11, 'each REP is answered with a NAK', at.lossy)
class NakForEachRep(Node):
    def come_rep(self, num):
        self.say_nak(3)


@bug(11, 'damage from before the start is answered after it', at.starts)
class NakFromBefore(Node):
    waits = 0

    def come(self, number, unit):
        damage = self.damage_of(unit)
        if damage and self.state != 'RUNNING':
            self.waits = damage
        super().come(number, unit)
        if self.state == 'RUNNING' and self.waits:
            self.say_nak(self.waits)
            self.waits = 0


@bug(11, 'a valid unit is taken for a damaged one', at.quiet)
class TakenForDamaged(Node):
    def damage_of(self, unit):
        return super().damage_of(unit) or (BAD_HEADER if unit[6] == unit[7] or unit[0] == SOH and unit[4] == 3 else None)


# ---- what a node keeps


@bug(12, 'a packet that arrives again is kept again', at.lossy)
class RepeatKept(Node):
    def is_next(self, num):
        return super().is_next(num) or num == self.received % 256


@bug(12, 'a packet after a gap is kept', at.lost)
class GapKept(Node):
    def is_next(self, num):
        return super().is_next(num) or num == (self.received + 2) % 256


@bug(12, 'a packet with a wrong check is kept', at.lossy)
class DamagedKept(Node):
    def damage_of(self, unit):
        damage = super().damage_of(unit)
        return None if damage == 2 else damage


@bug(12, 'a packet is kept before RUNNING', at.one_restarts)
class HaltedKeeps(Node):
    def come_data(self, number, unit):
        if self.can_take(unit[3]):
            super().come_data(number, unit)
        else:
            self.note('k', number, unit)


# ---- its user


@bug(14, 'a station that gets no answer starts again without a halt', at.lossy)
class StartsInRunning(Node):
    def say_rep(self):
        self.start()


@bug(14, 'each repetition of STRT is a new start', at.starts)
class StartsAnew(Node):
    def timer(self):
        if self.state == 'ISTRT':
            self.start()
        else:
            super().timer()


# ---- noise


@bug(27, 'an unexpected unit is recorded as noise', at.lossy)
class ThrownAway(Node):
    def come(self, number, unit):
        if unit[1] in (REP, STACK, STRT) and unit[0] == ENQ and self.state == 'RUNNING' and not self.damage_of(unit):
            self.lines.append('n ' + unit.hex())
        else:
            super().come(number, unit)
