"""Pairs of captures in format 3 that nobody chose: random runs of two nodes that boot, give calls up, lose packets above DDCMP and drop what they
composed (tools/tests/nodes/near_nodes.py), and of most of them one record changed. `near_pair(seed)` is the texts of both captures. A part of
tools/tests/test_near."""
import random

from reading.player.units import data_reading, data_unit
from tests.nodes import small_sessions as at
from tests.nodes.near_nodes import NearNode

# what a node does in the place of hearing and sending, and how often
DEEDS = (('talks', 12), ('opens', 6), ('closes', 3), ('says_hello', 3), ('restart', 1), ('boot', 1.5), ('give_up', 5), ('drop', 4), ('interrupts', 2),
         ('link_timer', 5), ('wait', 6))
DEED = 0.25  # how often it does one of these

# lines in the place of others, by how these begin
OTHERS = {'k': ('d', 'r'), 'd': ('k', 'r'), 'r': ('k', 'd')}
EVENTS = {'boot': ('halt', 'start'), 'halt': ('boot',), 'abort': ('close',), 'close': ('abort',), 'open': ('abort',)}


def run_of(chance):
    """Both nodes after a random run."""
    nodes = {side: NearNode(side, chance) for side in 'ab'}
    loss, is_quiet = chance.choice((0.0, 0.0, 0.03)), chance.random() < 0.5
    for node in nodes.values():
        node.above, node.is_waiting = chance.choice((0.0, 0.1, 0.3)), chance.random() < 0.3
        node.start()
    names, weights = zip(*DEEDS)
    for _ in range(chance.choice((30, 80, 200))):
        if chance.random() < DEED * (0.5 if is_quiet else 1):
            name = chance.choices(names, weights)[0]
            getattr(nodes[chance.choice('ab')], name)()
        else:
            at.step(nodes, chance, loss)
    return nodes


# ---- one change

def changed_line(chance, line):
    """The line of another record, where there is one that is like it."""
    verb, *words = line.split(' ')
    if verb in OTHERS:
        return ' '.join([chance.choice(OTHERS[verb]), *words])
    if verb == 'u' and words[0] in EVENTS:
        other = chance.choice(EVENTS[words[0]])
        return ' '.join(['u', other, *words[1:]])
    if verb != 'u':
        return changed_packet(chance, verb, words)
    if len(words) > 1:
        words[1] = str(max(1, int(words[1]) + chance.choice((-1, 1))))
    return ' '.join(['u', *words])


def changed_packet(chance, verb, words):
    """The line with a byte of its packet changed, and right checks; one without a packet as it is."""
    unit = bytes.fromhex(words[-1].replace('-', ''))
    data = data_reading(unit) if verb == 's' else None
    packet = unit if verb == 'x' else data.packet if data is not None and data.kind == 'data' else None
    if not packet:
        return ' '.join([verb, *words])
    place = chance.randrange(len(packet))
    packet = packet[:place] + bytes([packet[place] ^ 1 << chance.randrange(8)]) + packet[place + 1:]
    return '%s %s' % (verb, (packet if verb == 'x' else data_unit(data.resp, data.num, packet)).hex())


def change(chance, lines):
    """Leaves a record out, makes it twice, moves it, puts another one in its place, or puts in one of format 3."""
    if len(lines) < 2:
        return
    place = chance.randrange(1, len(lines))
    line = lines[place]
    kind = chance.choice(('out', 'twice', 'moved', 'other', 'other', 'other', 'in'))
    if kind == 'out':
        lines.pop(place)
    elif kind == 'twice':
        lines.insert(place, line)
    elif kind == 'moved':
        lines.insert(chance.randrange(1, len(lines)), lines.pop(place))
    elif kind == 'other':
        lines[place] = changed_line(chance, line)
    else:
        lines.insert(place, near_line(chance, lines))


def near_line(chance, lines):
    """A line of format 3: an event, or a packet that was sent, as one that is not."""
    packets = [data.packet for data in (data_reading(bytes.fromhex(line[2:])) for line in lines if line.startswith('s 81')) if data.kind == 'data']
    events = ['u boot', 'u abort %d' % chance.randrange(1, 4), 'u up %d -' % chance.randrange(1, 4)]
    composed = ['x ' + packet.hex() for packet in packets]
    return chance.choice(composed if composed and chance.random() < 0.5 else events)


def near_pair(seed):
    """The texts of both captures; of three in four seeds a record is changed."""
    chance = random.Random('near %d' % seed)
    nodes = run_of(chance)
    texts = [nodes[side].text().splitlines() for side in 'ab']
    if seed % 4:
        change(chance, chance.choice(texts))
    return ['\n'.join(lines) + '\n' for lines in texts]
