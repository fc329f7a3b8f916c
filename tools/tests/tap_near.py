"""What passes between two nodes that boot and give calls up (tools/tests/nodes/near_nodes.py), as a source of chance says, for
`tools/tests/test_tap`."""
import random

from tests.nodes import small_sessions as at
from tests.nodes.near_nodes import NearNode
from tests.nodes.small_node import BEGINS, DATA_ACK, ENDS
from tests.passed import wire_text
from tests.program import share

# what a node does in the place of hearing and sending, and how often: without boots and aborts, and these
PLAIN = (('talks', 12), ('opens', 8), ('closes', 3), ('says_hello', 3), ('restart', 1.5), ('link_timer', 5), ('wait', 6))
NEAR = (('boot', 1.5), ('give_up', 5))
DEED = 0.2  # how often it does one of these
SEGMENTS = 0, BEGINS, ENDS, BEGINS | ENDS, DATA_ACK


class TappedNode(NearNode):
    """It loses nothing above DDCMP, and answers a message of no link by a DC."""

    def drop(self):
        """Nothing is dropped, since no tap sees that."""

    def come_confirm(self, own, far, size):
        super().come_confirm(own, far, size)
        self.answer_no_link(own, far)

    def arrive(self, packet):
        super().arrive(packet)
        if packet[0] == 2 and len(packet) >= 11 and packet[6] in SEGMENTS:
            self.answer_no_link(*(int.from_bytes(packet[at:at + 2], 'little') for at in (7, 9)))

    def answer_no_link(self, own, far):
        link = self.live(own)
        if own and not (link and link.far == far) and (far, own) not in self.gone:
            self.gone.append((far, own))


def session(seed, deeds):
    """The texts of both captures of a session."""
    chance = random.Random('tap %d' % seed)
    nodes = {side: TappedNode(side, chance) for side in 'ab'}
    loss = chance.choice((0.0, 0.0, 0.03))
    for node in nodes.values():
        node.is_waiting = chance.random() < 0.3
        node.start()
    names, weights = zip(*deeds)
    for _ in range(chance.choice((60, 120, 250))):
        if chance.random() < DEED:
            getattr(nodes[chance.choice('ab')], chance.choices(names, weights)[0])()
        else:
            at.step(nodes, chance, loss)
    return [nodes[side].text() for side in 'ab']


def fault_of_near(tap, texts):
    """How what passed in a session that `check` accepts is not accepted, or explained by a boot where no node booted, or None; and whether `check`
    accepts it."""
    for path, text in zip((tap.a, tap.b), texts):
        with open(path, 'w', encoding='ascii') as capture:
            capture.write(text)
    if tap.check()[2]:
        return None, False
    out, err, status = tap.tap(wire_text(tap.a, tap.b))
    if status or not out.startswith('accepted\n') or tap.check()[2]:
        return 'printed %r %r' % (out[:80], err), True
    if 'this assumes a boot ' in out and 'u boot' not in ''.join(texts):
        return 'no node booted: %r' % out, True
    return None, True


def faults_of_near(tap, sessions):
    """For each of so many sessions with boots and aborts, and of a third as many without them, what is wrong, or None. Most are such that `check`
    accepts them."""
    right = 0
    seeds = share([(seed, PLAIN + NEAR) for seed in range(sessions)] + [(seed, PLAIN) for seed in range(sessions // 3)], 3)
    for seed, deeds in seeds:
        fault, is_right = fault_of_near(tap, session(seed, deeds))
        right += is_right
        yield 'boots and aborts, %d: %s' % (seed, fault) if fault else None
    yield None if right > len(seeds) / 2 else 'boots and aborts: %d of %d sessions are right' % (right, len(seeds))
