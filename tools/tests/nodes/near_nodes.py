"""Two small nodes (tools/tests/nodes/small_node.py) that start anew, give calls up, lose packets above DDCMP, and drop what they composed, as a
source of chance says; and their captures in format 3. A part of tools/tests/near_pairs.py."""
from tests.nodes.small_node import Node

MOST_LINKS = 4  # of a node at one time
MOST_WAITING = 8


class NearNode(Node):
    """Of the packets that it keeps it loses so many `above`. Where it is `waiting`, what NSP composes waits in a queue, which a restart drops."""

    def __init__(self, side, chance):
        super().__init__(side, chance)
        self.above, self.is_lost = 0.0, False
        self.is_waiting, self.queue = False, []
        self.first = 1  # the first address that it gives

    def text(self):
        """Its capture."""
        head, *lines = self.lines
        return '\n'.join([head.replace('ddcap 1', 'ddcap 3'), *lines]) + '\n'

    def free_address(self, is_opened):
        return next(own for own in range(self.first, 65536) if not self.live(own))

    # ---- what is lost above

    def note(self, letter, number, unit):
        self.is_lost = letter == 'k' and self.chance.random() < self.above
        super().note('d' if self.is_lost else letter, number, unit)

    def arrive(self, packet):
        if not self.is_lost:
            super().arrive(packet)

    # ---- what waits, and what is dropped

    def compose(self):
        if not self.is_waiting:
            return super().compose()
        while len(self.queue) < MOST_WAITING:
            packet = super().compose()
            if packet is None:
                break
            self.queue.append(packet)
        return self.queue.pop(0) if self.queue else None

    def drop(self):
        """What waits is dropped; of a node without a queue the next packet, once it is composed."""
        dropped = self.queue if self.is_waiting else [packet for packet in [super().compose()] if packet]
        self.lines += ['x ' + packet.hex() for packet in dropped]
        self.queue = []

    def restart(self):
        self.drop()
        if self.state != 'HALTED':
            self.halt()
        self.start()

    # ---- a boot, and a call that is given up

    def boot(self):
        """It boots, and gives other addresses than before, or the same ones again."""
        self.lines.append('u boot')
        self.state = 'HALTED'
        self.links, self.gone, self.queue, self.hellos = [], [], [], 0
        self.first = self.chance.choice((1, self.first, self.first + 10))

    def give_up(self):
        """A call that is not answered is given up."""
        calling = [link for link in self.links if link.phase == 'Calling']
        if calling:
            link = self.chance.choice(calling)
            self.lines.append('u abort %d' % link.own)
            link.goes_to('Ended')

    def interrupts(self):
        event = self.chance.choice(('interrupt', 'interrupted'))
        self.lines.append('u %s %d %s' % (event, self.chance.randrange(1, 5), self.chance.randbytes(self.chance.choice((0, 1, 16))).hex() or '-'))

    # ---- what its user does otherwise

    def talks(self):
        """A message of its user on a link that takes one."""
        links = [link for link in self.links if link.phase in ('Calling', 'Confirming', 'RUN')]
        if links:
            self.hand_in(self.chance.choice(links), self.chance.randbytes(self.chance.choice((0, 1, 7, 20, 55))))

    def opens(self):
        if sum(link.phase != 'Ended' for link in self.links) < MOST_LINKS:
            self.open()

    def closes(self):
        links = [link for link in self.links if link.phase in ('Confirming', 'RUN')]
        if links:
            self.close(self.chance.choice(links))

    def says_hello(self):
        self.hellos += 1
