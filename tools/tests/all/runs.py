"""Pairs of captures for `check --all` that nobody chose. `random_pair(seed)` is a random run of two nodes (tools/tests/nodes/near_nodes.py) that send
some messages wrongly, with recorders that forget events, and of some of them a record changed or a text cut. `faulty_links(seed)` is a run of right
nodes, with the lines that can be changed so that one link is wrong. A part of tools/tests/test_all."""
import random
import re

from lists.pairs import NEAR
from reading.groups import Grouping, message_of, why_unread
from reading.player.units import data_reading, data_unit
from tests.near_pairs import change
from tests.nodes import small_sessions as at
from tests.nodes.near_nodes import NearNode

MOST_LINKS = 8  # of a node at one time
OF_LINKS = (('talks', 12), ('opens', 8), ('closes', 4), ('says_hello', 2), ('link_timer', 4), ('wait', 5))
NEAR_DEEDS = (('restart', 1), ('boot', 0.7), ('give_up', 3), ('drop', 2), ('interrupts', 1))
DEED = 0.3  # how often a node does one of these in the place of hearing and sending
LINK_EVENT = re.compile('u (open|accept|reject|in|up|close|abort) ')

# what of a packet is changed: the places of the first byte, of the nodes, of the flag byte, of both addresses, and of what comes behind them
PLACES = 0, 1, 3, 6, 6, 7, 7, 9, 9, 11, 12, 13, 14


class FaultyNode(NearNode):
    """Of the packets that it composes so many are `wrong`. Where it is `fresh`, it gives no address again."""

    def __init__(self, side, chance):
        super().__init__(side, chance)
        self.wrong, self.is_fresh, self.last = 0.0, False, 0

    def free_address(self, is_opened):
        if not self.is_fresh:
            return super().free_address(is_opened)
        self.last += 1
        return self.last

    def opens(self):
        if sum(link.phase != 'Ended' for link in self.links) < MOST_LINKS:
            self.open()

    def compose(self):
        packet = super().compose()
        return packet if packet is None or self.chance.random() >= self.wrong else wrong_packet(self.chance, packet)

    def arrive(self, packet):
        if why_unread(packet) is None:
            super().arrive(packet)

    def text(self):
        return text_of(super().text().splitlines())


def wrong_packet(chance, packet):
    """A packet with a bit of it changed, mostly a low one."""
    place = min(chance.choice(PLACES), len(packet) - 1)
    bit = chance.choice((0, 0, 1, 1, 2, 3, 4, 5, 6, 7))
    return packet[:place] + bytes([packet[place] ^ 1 << bit]) + packet[place + 1:]


def text_of(lines):
    """The text of these lines, in format 1 where that has them all."""
    form = '3' if any(NEAR.match(line) for line in lines[1:]) else '1'
    return '\n'.join([lines[0].replace('ddcap 3', 'ddcap ' + form), *lines[1:]]) + '\n'


def run_of(chance, nodes, deeds, steps, loss):
    """Both nodes after a random run."""
    for node in nodes.values():
        node.start()
    names, weights = zip(*deeds)
    for _ in range(steps):
        if chance.random() < DEED:
            getattr(nodes[chance.choice('ab')], chance.choices(names, weights)[0])()
        else:
            at.step(nodes, chance, loss)
    return nodes


def new_nodes(chance):
    nodes = {side: FaultyNode(side, chance) for side in 'ab'}
    is_fresh = chance.random() < 0.7
    for node in nodes.values():
        node.is_fresh = is_fresh
    return nodes


# ---- random pairs

def random_lines(chance):
    """The lines of both captures of a random run."""
    nodes, is_near = new_nodes(chance), chance.random() < 0.4
    wrong = chance.choice((0.0, 0.02, 0.06, 0.2))
    for node in nodes.values():
        node.wrong = chance.choice((0.0, wrong, wrong))
        node.rejects = chance.random() < 0.2
        node.is_waiting = chance.random() < 0.15
        node.above = chance.choice((0.0, 0.1)) if is_near else 0.0
    steps, loss = chance.choice((60, 150, 300)), chance.choice((0.0, 0.0, 0.02))
    run_of(chance, nodes, OF_LINKS + (NEAR_DEEDS if is_near else ()), steps, loss)
    return [nodes[side].text().splitlines() for side in 'ab']


def forgotten(chance, lines):
    """The lines, without some of the events of links."""
    often = chance.choice((0.0, 0.0, 0.03, 0.1, 0.3))
    return [line for line in lines if not LINK_EVENT.match(line) or chance.random() >= often]


def random_pair(seed):
    """The texts of both captures."""
    chance = random.Random('all %d' % seed)
    texts = random_lines(chance)
    if chance.random() < 0.02:
        texts[1] = random_lines(chance)[1]
    texts = [forgotten(chance, lines) for lines in texts]
    if chance.random() < 0.25:
        change(chance, chance.choice(texts))
    texts = [text_of([lines[0].replace('ddcap 1', 'ddcap 3'), *lines[1:]]) for lines in texts]
    if chance.random() < 0.04:
        side = chance.randrange(2)
        texts[side] = texts[side][:chance.randrange(len(texts[side]))]
    return texts


# ---- faults of links, each of another one

NOTHING = 'u interrupted 65535 -'  # an event in the place of one that is forgotten


def end_in(letter, line):
    """The end that an event of a link, a segment or a data acknowledgement in this line is of, or None."""
    record = line.split(' ')
    message = message_of(record)
    is_changed = LINK_EVENT.match(line) or record[0] == 's' and message is not None and message.kind in ('segment', 'data ack')
    return Grouping().ends_of(letter, record)[0] if is_changed else None


def fault_in(chance, line):
    """What a line of a link is changed to: an event is forgotten or has other data; of a segment or an acknowledgement a byte is changed."""
    words = line.split(' ')
    if words[0] == 'u':
        return ' '.join([*words[:3], '0505']) if words[1] in ('in', 'up') and chance.random() < 0.5 else NOTHING
    data = data_reading(bytes.fromhex(line[2:]))
    place = chance.choice((1, 3, 7, 10, 11, 12)[:6 if len(data.packet) > 12 else 4])
    packet = data.packet[:place] + bytes([data.packet[place] ^ 1 << chance.randrange(4)]) + data.packet[place + 1:]
    return 's ' + data_unit(data.resp, data.num, packet).hex()


def with_faults(texts, faults):
    """Both texts with these lines changed: by the side and the place of a line, what it is then. A unit that is sent otherwise comes so too."""
    lines = [text.splitlines() for text in texts]
    for (side, place), line in faults.items():
        old, new = lines[side][place], line
        lines[side][place] = new
        if old.startswith('s '):
            lines[1 - side] = [other.replace(old[2:], new[2:]) if other[:1] in 'rkd' else other for other in lines[1 - side]]
    return ['\n'.join(own) + '\n' for own in lines]


def faulty_links(seed):
    """A source of chance, the texts of a run of right nodes, and the lines of them that can be changed: of each its side, its place, and its end."""
    chance = random.Random('links %d' % seed)
    nodes = {side: FaultyNode(side, chance) for side in 'ab'}
    for node in nodes.values():
        node.is_fresh = True
    run_of(chance, nodes, OF_LINKS, chance.choice((120, 240)), 0.0)
    texts = [nodes[side].text().replace('ddcap 1', 'ddcap 3') for side in 'ab']
    places = [(side, place, line, end_in('ab'[side], line)) for side in (0, 1) for place, line in enumerate(texts[side].splitlines()) if place]
    places = [found for found in places if found[3]]
    chance.shuffle(places)
    return chance, texts, places
