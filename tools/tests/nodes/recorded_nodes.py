"""Two nodes on a line that loses and damages units, each of which calls a recorder of examples/ as a node would: tools/tests/test_recorder tries with
them what recorders write."""
import random

from captures import register_over
from tests.nodes.wire_nodes import ACK, FLAGS, NAK, NO_BUFFER, REP, STACK, STRT, control, data

SOH = 0x81
PACKETS = 200  # of each node


class Node:
    """A DDCMP station that sends its packets one after another, with its recorder. `out` has its units that are under way, with their numbers."""

    def __init__(self, recorder, packets, chance):
        self.recorder, self.packets, self.chance = recorder, packets, chance
        self.out, self.count, self.state = [], 0, 'HALTED'
        self.received = self.acknowledged = self.given = self.kept = 0

    def start(self):
        self.recorder.user('start')
        self.state = 'ISTRT'
        self.received = self.acknowledged = self.given = 0
        self.say(control(STRT, FLAGS))

    def halt(self):
        self.recorder.user('halt')
        self.state = 'HALTED'

    def say(self, unit):
        self.recorder.sent(unit)
        self.out.append((self.count, unit))
        self.count += 1

    def timer(self):
        if self.state == 'ISTRT':
            self.say(control(STRT, FLAGS))
        elif self.state == 'ASTRT':
            self.say(control(STACK, FLAGS))
        elif self.state == 'RUNNING' and self.given > self.acknowledged:
            self.say(control(REP, 0, 0, self.given % 256))

    def send(self):
        if self.state == 'RUNNING' and self.given == self.acknowledged and self.packets:
            self.given += 1
            self.say_packet()

    def say_packet(self):
        self.say(data(self.given % 256, self.received % 256, self.packets[0]))

    def come(self, number, unit):
        """A unit came. Whether its packet is kept is decided first, so that its line comes before those of the answers."""
        damage = damage_of(unit)
        is_data = not damage and unit[0] == SOH and self.state in ('RUNNING', 'ASTRT') and (self.state == 'RUNNING' or unit[3] == 0)
        is_next = is_data and unit[4] == (self.received + 1) % 256
        has_buffer = self.chance.random() > 0.1
        if is_next and has_buffer:
            self.recorder.kept(unit, number)
            self.kept += 1
        else:
            self.recorder.received(unit, number)
        if damage and self.state == 'RUNNING':
            self.say(control(NAK, damage, self.received % 256))
        elif is_data:
            self.state = 'RUNNING'
            self.respond(unit[3])
            self.received += is_next and has_buffer
            self.say(control(NAK, NO_BUFFER, self.received % 256) if is_next and not has_buffer else control(ACK, 0, self.received % 256))
        elif not damage and unit[0] != SOH:
            self.come_control(*unit[1:5])

    def come_control(self, kind, _, resp, num):
        if kind == STRT and self.state != 'HALTED':
            self.state = 'HALTED' if self.state == 'RUNNING' else 'ASTRT'
            if self.state == 'ASTRT':
                self.say(control(STACK, FLAGS))
        elif kind == STACK and self.state != 'HALTED':
            self.state = 'RUNNING'
            self.say(control(ACK, 0, self.received % 256))
        elif kind in (ACK, NAK) and (self.state == 'RUNNING' or (self.state, kind, resp) == ('ASTRT', ACK, 0)):
            self.state = 'RUNNING'
            self.respond(resp)
            if kind == NAK and self.given > self.acknowledged:
                self.say_packet()
        elif kind == REP and self.state == 'RUNNING':
            self.say(control(ACK, 0, self.received % 256) if num == self.received % 256 else control(NAK, 3, self.received % 256))

    def respond(self, resp):
        if self.given > self.acknowledged and resp == self.given % 256:
            self.acknowledged = self.given
            self.packets.pop(0)


def damage_of(unit):
    """The reason of a NAK for this unit, or None where its checks are good."""
    if register_over(unit[:8]):
        return 1
    return 2 if unit[0] == SOH and register_over(unit[8:]) else None


def session(recorders, seed, loss=0.05):
    """Two nodes with these recorders, until their packets have come: the nodes. In the middle both are halted and started."""
    chance = random.Random(seed)
    nodes = {side: Node(recorders[side], [b'\5%d of %s' % (number, side.encode()) for number in range(PACKETS)], chance) for side in 'ab'}
    for part in (PACKETS // 2, 0):
        for node in nodes.values():
            node.start()
        while any(len(node.packets) > part for node in nodes.values()):
            one, other = chance.sample(sorted(nodes), 2)
            nodes[one].send() if chance.random() < 0.5 else None
            if nodes[other].out:
                deliver(nodes[one], nodes[other], chance, loss)
            elif not nodes[one].out:
                nodes[one].timer()
        for node in nodes.values():
            node.out.clear()  # what is under way is lost
            node.halt()
    return nodes


def deliver(node, sender, chance, loss):
    number, unit = sender.out.pop(0)
    fate = chance.random()
    if fate > loss:
        node.come(number, unit)
    elif fate > loss / 2:
        place = chance.randrange(len(unit))
        node.come(number, unit[:place] + bytes([unit[place] ^ 1 << chance.randrange(8)]) + unit[place + 1:])
