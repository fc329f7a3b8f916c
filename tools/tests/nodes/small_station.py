"""A small DDCMP station for tools/tests/test_bugs, written for that test alone: it keeps to the rules and writes its own capture. Each thing that it
does is a method of its own, so that a bug is a class that does one of them in another way."""
from captures import register_over, with_check

SOH, ENQ = 0x81, 0x05
ACK, NAK, REP, STRT, STACK = 1, 2, 3, 6, 7
BAD_HEADER, BAD_DATA, REP_ANSWER, NO_BUFFER = 1, 2, 3, 8
FLAGS = 0xc0  # QSYNC and SELECT, of a STRT and a STACK
HEADS = {'a': 'ddcap 1 1.1 1.2', 'b': 'ddcap 1 1.2 1.1'}


class Station:
    """`lines` is the capture. `out` has the units that are on their way, each with its number and bytes."""

    def __init__(self, side, chance):
        self.chance = chance
        self.lines = [HEADS[side]]
        self.out, self.count = [], 0
        self.lack = 0.0  # how often there is no buffer
        self.state = 'HALTED'
        self.reset()

    def reset(self):
        """The numbers of a new start: received, acknowledged, highest given, next to send."""
        self.received = self.acknowledged = self.given = 0
        self.next = 1
        self.packets = {}
        self.is_ack_owed = False

    # ---- what is sent

    def say(self, unit):
        self.lines.append('s ' + unit.hex())
        self.count += 1
        self.transmit(self.count - 1, unit)

    def transmit(self, number, unit):
        self.out.append((number, unit))

    def check(self, field):
        return with_check(field)

    def control(self, kind, subtype=0, resp=0, num=0):
        return self.check(bytes([ENQ, kind, subtype, resp, num, 1]))

    def data(self, num):
        packet = self.packets[num]
        return self.check(self.header(len(packet), num)) + self.check(packet)

    def header(self, count, num):
        return bytes([SOH, count & 255, count >> 8, self.resp(), num % 256, 1])

    def resp(self):
        return self.received % 256

    def say_ack(self):
        self.is_ack_owed = False
        self.say(self.control(ACK, 0, self.resp()))

    def say_nak(self, reason):
        self.is_ack_owed = False
        self.say(self.control(NAK, reason, self.resp()))

    def say_rep(self):
        self.say(self.control(REP, 0, 0, self.given % 256))

    def say_strt(self):
        self.say(self.control(STRT, FLAGS))

    def say_stack(self):
        self.say(self.control(STACK, FLAGS))

    def send(self):
        """Sends data, or else an acknowledgement that is owed; answers whether there was one."""
        if self.state != 'RUNNING':
            return False
        if self.next <= self.given or self.may_give() and self.give(self.compose()):
            self.is_ack_owed = False
            self.say(self.data(self.next))
            self.next += 1
            return True
        if self.is_ack_owed:
            self.say_ack()
            return True
        return False

    def may_give(self):
        return self.given - self.acknowledged < 255

    def give(self, packet):
        if packet is None:
            return False
        self.given += 1
        self.packets[self.given] = packet
        return True

    def timer(self):
        """Asks again, where the other side owes an answer."""
        if self.state == 'ISTRT':
            self.say_strt()
        elif self.state == 'ASTRT':
            self.say_stack()
        elif self.state == 'RUNNING' and self.given > self.acknowledged:
            self.say_rep()

    # ---- what the user does

    def start(self):
        self.lines.append('u start')
        self.state = 'ISTRT'
        self.reset()
        self.say_strt()

    def halt(self):
        self.lines.append('u halt')
        self.state = 'HALTED'

    # ---- what arrives

    def come(self, number, unit):
        damage = self.damage_of(unit)
        if damage:
            self.note('r', number, unit)
            if self.state == 'RUNNING':
                self.come_damaged(damage)
        elif unit[0] == SOH:
            self.come_data(number, unit)
        else:
            self.note('r', number, unit)
            self.come_control(unit[1], unit[3], unit[4])

    def note(self, letter, number, unit):
        self.lines.append('%s %d %s' % (letter, number, unit.hex()))

    def damage_of(self, unit):
        """The reason of a NAK for this unit, or None where its checks are good."""
        if len(unit) < 8 or register_over(unit[:8]):
            return BAD_HEADER
        if unit[0] != SOH:
            return None
        end = (unit[1] | (unit[2] & 63) << 8) + 10
        return BAD_DATA if len(unit) < end or register_over(unit[8:end]) else None

    def come_damaged(self, reason):
        self.say_nak(reason)

    def come_data(self, number, unit):
        resp, num = unit[3], unit[4]
        is_next = self.can_take(resp) and self.is_next(num)
        has_buffer = self.chance.random() >= self.lack
        self.note('k' if is_next and has_buffer else 'r', number, unit)
        if not self.can_take(resp):
            return
        self.state = 'RUNNING'
        self.respond(resp)
        if is_next and has_buffer:
            self.take(unit)
        elif is_next:
            self.come_unbuffered()
        else:
            self.come_out_of_order(num)

    def can_take(self, resp):
        return self.state == 'RUNNING' or (self.state, resp) == ('ASTRT', 0)

    def is_next(self, num):
        return num == (self.received + 1) % 256

    def take(self, unit):
        self.received += 1
        self.is_ack_owed = True
        self.arrive(unit[8:-2])

    def come_unbuffered(self):
        self.say_nak(NO_BUFFER)

    def come_out_of_order(self, num):
        """Data that is not the next waits for a REP."""

    def come_control(self, kind, resp, num):
        if kind == STRT:
            self.come_strt()
        elif kind == STACK and self.state in ('ISTRT', 'ASTRT'):
            self.state = 'RUNNING'
            self.say_ack()
        elif kind == STACK and self.state == 'RUNNING':
            self.is_ack_owed = True  # the other end has not heard the first one
        elif kind == ACK and (self.state, resp) == ('ASTRT', 0):
            self.state = 'RUNNING'
        elif self.state == 'RUNNING' and kind == ACK:
            self.respond(resp)
        elif self.state == 'RUNNING' and kind == NAK:
            self.come_nak(resp)
        elif self.state == 'RUNNING' and kind == REP:
            self.come_rep(num)

    def come_strt(self):
        if self.state == 'RUNNING':
            self.state = 'HALTED'
        elif self.state != 'HALTED':
            self.state = 'ASTRT'
            self.say_stack()

    def come_nak(self, resp):
        self.respond(resp)
        self.next = self.acknowledged + 1

    def come_rep(self, num):
        if num == self.received % 256:
            self.say_ack()
        else:
            self.say_nak(REP_ANSWER)

    def respond(self, resp):
        ahead = (resp - self.acknowledged) % 256
        if ahead <= self.given - self.acknowledged:
            self.acknowledged += ahead
            self.next = max(self.next, self.acknowledged + 1)

    # ---- what the layer above gives and takes

    def compose(self):
        """The next packet to send, or None."""

    def arrive(self, packet):
        """A packet is kept."""
