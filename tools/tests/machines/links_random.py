"""Random calls with fixed seeds on the links of two nodes, each beside the second reading of the rules. A part of tools/tests/test_machines."""
import random

from reading.links import NO_TAG
from tests.machines.links import NODES, is_refused, two_links_in_run

OTHER = {'a': 'b', 'b': 'a'}


class Turns:
    """Turns of two nodes. `ends` tells whether links may end and begin; `answers` are all that were given."""

    def __init__(self, nodes, seed, ends):
        self.nodes, self.random, self.ends = nodes, random.Random(seed), ends
        self.answers = []
        self.met = {node: len(nodes.sent[OTHER[node]]) for node in 'ab'}

    def once_in(self, times):
        return self.random.randrange(times) == 0

    def turn(self):
        """One turn of one node."""
        node = self.random.choice('ab')
        kind = self.random.randrange(8)
        if kind < 2:
            answer = self.user(node)
        elif kind < 5:
            answer = self.nodes.sends(node, (NODES[node], NODES[OTHER[node]]), self.message(node))
        elif kind == 5 and self.once_in(20):
            answer = self.comes_unsent(node)
        else:
            answer = self.comes(node)
        self.answers.append(answer)

    def address(self):
        return self.random.randrange(1, 4)

    def data(self):
        return bytes(self.random.choice([0, 1, 255]) for _ in range(self.random.randrange(5)))

    def user(self, node):
        """An event of the user: mostly one that goes on."""
        links, link = self.nodes.readings[node].links, self.address()
        kind = self.random.randrange(12 if self.ends else 6)
        if kind < 3:
            return self.nodes.user(node, 'in', [link, self.data()])
        if kind == 3:
            return self.nodes.user(node, 'up', [link, self.data()])
        if kind < 6:
            whole = [(link.own, link.flow.whole()) for link in links[-4:] if link.own is not None]
            ready = [(own, messages[0][1]) for own, messages in whole if messages]
            return self.nodes.user(node, 'up', list(self.random.choice(ready))) if ready else None
        if kind < 8:
            return self.nodes.user(node, 'open', [link])
        called = [other.far for other in links if other.phase == 'Called']
        if kind < 10:
            return self.nodes.user(node, 'accept', [called[0] if called else self.address(), link])
        if kind == 10:
            return self.nodes.user(node, 'reject', [self.address(), link]) if self.once_in(3) else None
        return self.nodes.user(node, 'close', [link]) if self.once_in(4) else None

    def message(self, node):
        """A message that the node sends, or tries to."""
        links = self.nodes.readings[node].links
        known = [link for link in links if link.phase != 'Ended' and link.own and link.far]
        link = known[-1 - (len(known) > 1 and self.once_in(5))] if known else None
        if link and not (self.ends and self.once_in(2)):
            return self.data_ack(link) if self.once_in(5) else self.segment(link)
        calling = [other.own for other in links if other.phase == 'Calling' and other.own]
        if not link and calling and not self.once_in(4):
            return self.other(0, (0, calling[0]))
        return self.other(self.random.randrange(10), self.addresses(link))

    def addresses(self, link):
        """Two addresses of a message, DSTADDR first: those of a link, or any."""
        if link and not self.once_in(10):
            return link.far, link.own
        return self.address(), self.address()

    def words(self, link):
        """The words of a message of this link: mostly such as may be sent."""
        flow, words = link.flow, b''
        for _ in range(self.random.randrange(3)):
            numbers = {0: flow.received + 1, 1: flow.last - self.random.randrange(2100)}
            number = numbers.get(self.random.randrange(12), flow.last + self.random.randrange(max(flow.received - flow.last, 0) + 1))
            words += word_of(number, 0x8000)
        return words

    def segment(self, link):
        """A segment: the next piece, or one of those before it, now and then with something wrong."""
        flow = link.flow
        flag, data, number = 0x60, self.data(), flow.given + 1
        if flow.handed:
            data = flow.handed[0][:self.random.randrange(5)]
            flag = 0x20 * (not flow.is_begun) + 0x40 * (data == flow.handed[0])
        if self.once_in(4) and flow.given:
            number = max(1, flow.given - self.random.randrange(2100 if self.once_in(4) else 6))
            flag, data = flow.pieces.get(number, (flag, data))
        if self.once_in(20):
            data = self.data()
        if self.once_in(30):
            flag ^= 0x40
        return bytes([flag]) + ends_of(*self.addresses(link)) + self.words(link) + word_of(number, 0) + data

    def data_ack(self, link):
        words = self.words(link) or word_of(link.flow.received, 0x8000)
        return b'\4' + ends_of(*self.addresses(link)) + words

    def other(self, kind, addresses):
        """A message that has no numbers."""
        flag, behind = [('18', '01020300'), ('18', '01020300'), ('68', '01020300'), ('28', '01020200'), ('28', '01020200'), ('10', ''), ('30', ''),
                        ('14', ''), ('38', '000000'), ('48', '0000')][kind]
        far, own = addresses
        return bytes.fromhex(flag) + ends_of(0 if kind < 3 else far, own) + bytes.fromhex(behind)

    def comes_unsent(self, node):
        """A message comes that nobody sent; where one link is to stay, none that ends it or calls."""
        kind = self.random.randrange(9) if self.ends else self.random.randrange(3, 8)
        return self.nodes.gets(node, (NODES[OTHER[node]], NODES[node]), NO_TAG, self.other(kind, self.addresses(None)))

    def comes(self, node):
        """The next message of the other node comes, or is lost; now and then with the tag of another link first."""
        other = OTHER[node]
        if self.met[node] == len(self.nodes.sent[other]):
            return None
        message, tag = self.nodes.sent[other][self.met[node]]
        self.met[node] += 1
        nodes = NODES[other], NODES[node]
        if message[0] & 0x9f == 0 and tag.link is not None and self.once_in(8):
            self.answers.append(self.nodes.gets(node, nodes, tag._replace(link=tag.link + 1_000_000), message))
        return None if self.once_in(8) else self.nodes.gets(node, nodes, tag, message)


def word_of(number, bits):
    return (number % 4096 | bits).to_bytes(2, 'little')


def ends_of(far, own):
    return far.to_bytes(2, 'little') + own.to_bytes(2, 'little')


def add_links(calls):
    """Random turns. Each reason must have refused some of them, and half of all calls must have been made."""
    answers, links = [], 0
    for seed in range(24):
        ends = seed % 2 == 1
        nodes = two_links_in_run(calls, 'random calls, seed %d' % seed)
        turns = Turns(nodes, seed, ends)
        for _ in range(1000):
            turns.turn()
        answers += [answer for answer in turns.answers if answer is not None]
        links += sum(len(reading.links) for reading in nodes.readings.values())
    reasons = {answer for answer in answers if is_refused(answer)}
    missing = {'NoLink', 'LinkState', 'WrongSegment', 'WrongAck', 'SegmentTooLong', 'WrongDelivery', 'CrossedLink', 'AddressInUse'} - reasons
    made = sum(not is_refused(answer) for answer in answers)
    if missing or made < 0.25 * len(answers) or links < 100:
        return ['random links: %d of %d made, %d links, and no %s' % (made, len(answers), links, missing)]
    return []
