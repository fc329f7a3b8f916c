"""A reading of the player's rules that was made from the pages SCRIPTS, PLAYER, PROTOCOL and LINKS alone, and shares nothing with the program.
How each rule can be misread is beside it, in tools/reading/turns/player. tools/tests/test_play_turns runs the rows of tools/lists/rows.txt by it."""
import re
from copy import deepcopy

from reading.player.arrivals import arrived as arrived_at_station
from reading.player.comes import arrived as arrived_at_links
from reading.player.links import Links
from reading.player.station import Station
from reading.player.units import link_message, reading

NODE = r'([1-9]\d?)\.([1-9]\d{0,3})'
HEAD = re.compile('ddplay 1 %s %s' % (NODE, NODE))
NUMBER, BYTES = r'(0|[1-9]\d{0,17})', '(-|(?:[0-9a-f]{2})+)'
STEP = re.compile('([ab]) (?:(start|halt|boot|timer|send|deliver|refuse|drop|lose|open)|(damage) %s %s|(noise) %s|(accept|reject|close|abort|retry) %s|'
                  '(in) %s %s)' % (NUMBER, NUMBER, BYTES, NUMBER, NUMBER, BYTES))
# the steps for whose records format 1 has no line
OF_THREE = ['boot', 'abort', 'drop']


def bytes_of(text):
    """The bytes of a BYTES of a script."""
    return b'' if text == '-' else bytes.fromhex(text)


def text_of(data):
    """The BYTES of a line."""
    return data.hex() or '-'


class End:
    """One end: its station, its links, its capture, and the units on the line to it."""

    def __init__(self, own, peer):
        self.header = bytes([2]) + peer + own + b'\0'
        self.station, self.links = Station(), Links()
        self.lines = []
        self.coming, self.count = [], 0


class Play:
    """Both ends and the line. `make(step)` is None where the step is made, else 'bad step', 'full' or 'syntax'."""

    def __init__(self, head='ddplay 1 1.1 1.2'):
        nodes = HEAD.fullmatch(head)
        area_a, node_a, area_b, node_b = map(int, nodes.groups())
        a, b = ((area * 1024 + node).to_bytes(2, 'little') for area, node in ((area_a, node_a), (area_b, node_b)))
        self.ends = {'a': End(a, b), 'b': End(b, a)}
        nodes = head.split(' ')[2:]
        self.ends['a'].nodes, self.ends['b'].nodes = '%s %s' % (nodes[0], nodes[1]), '%s %s' % (nodes[1], nodes[0])
        self.format = 1

    def capture(self, side):
        """The lines of the capture of a side, its head the first."""
        end = self.ends[side]
        head = 'ddcap %d %s' % (self.format, end.nodes)
        return [head] + end.lines

    def make(self, step):
        """Makes this step."""
        parts = STEP.fullmatch(step)
        if parts is None:
            return 'syntax'
        side, word, *others = (part for part in parts.groups() if part is not None)
        end, other = self.ends[side], self.ends['b' if side == 'a' else 'a']
        if word in ('deliver', 'refuse', 'drop', 'lose', 'damage', 'noise'):
            made = getattr(self, word)(end, *others)
        elif word == 'send':
            made = self.send(end, other)
        else:
            made = self.of_user(end, word, others)
        if made is True and word in OF_THREE:
            self.format = 3
        return made if isinstance(made, str) else None if made else 'bad step'

    # ---- what the user and the timers do

    def of_user(self, end, word, others):
        """A step of the user or a timer: whether it is made, or 'full'."""
        numbers = [int(other) for other in others[:1]]
        if any(not 1 <= number <= 65_535 for number in numbers):
            return 'syntax'
        if word in ('start', 'halt', 'timer'):
            return self.of_station(end, word)
        if word == 'boot':
            return self.boot(end)
        if word in ('accept', 'reject', 'open'):
            return self.of_address(end, word, numbers)
        if word == 'retry':
            return end.links.retry(*numbers)
        is_made = end.links.hand_in(*numbers, bytes_of(others[1])) if word == 'in' else getattr(end.links, word)(*numbers)
        if is_made:
            end.lines.append(' '.join(['u', word] + others))
        return is_made

    def of_station(self, end, word):
        """A start, a halt or a timer."""
        is_made = {'start': end.station.start, 'halt': end.station.halt, 'timer': end.station.time_out}[word]()
        if is_made and word != 'timer':
            end.lines.append('u ' + word)
        return is_made

    def boot(self, end):
        """The node starts anew."""
        links = Links()
        if not end.station.halt():
            return False
        end.links = links
        end.lines.append('u boot')
        return True

    def of_address(self, end, word, numbers):
        """A step that gives a link its address."""
        address = end.links.answer(*numbers, word == 'accept') if numbers else end.links.open() or 0
        if address:
            end.lines.append('u %s %s' % (word, ' '.join(map(str, numbers + [address]))))
        return False if address is None else 'full' if address == 0 else True

    # ---- what is sent

    def send(self, end, other):
        """One unit goes out."""
        def packet():
            message = end.links.packet()
            return None if message is None else end.header + message
        unit = end.station.unit(packet)
        if unit is None:
            return False
        end.lines.append('s ' + unit.hex())
        other.coming.append((other.count, unit))
        other.count += 1
        return True

    # ---- what comes

    def next_unit(self, end):
        """The next unit on the line, with its number, taken off it; None where there is none."""
        return end.coming.pop(0) if end.coming else None

    def deliver(self, end):
        """The next unit comes."""
        unit = self.next_unit(end)
        if unit is None:
            return False
        return self.comes(end, *unit, unit[1], True)

    def refuse(self, end):
        """The next unit comes and is not kept."""
        unit = self.next_unit(end)
        if unit is None:
            return False
        return self.comes(end, *unit, unit[1], False)

    def drop(self, end):
        """The next unit comes and its packet is kept, and lost before the links."""
        if not end.coming:
            return False
        if not arrived_at_station(deepcopy(end.station), reading(end.coming[0][1]), True):
            return False
        number, unit = self.next_unit(end)
        message = reading(unit)
        arrived_at_station(end.station, message, True)
        end.lines.append('%s %d %s' % ('d', number, unit.hex()))
        return True

    def lose(self, end):
        """The next unit is lost."""
        unit = self.next_unit(end)
        return unit is not None

    def damage(self, end, place, change):
        """The next unit comes with a byte changed."""
        place, change = int(place), int(change)
        if not end.coming:
            return False
        length = len(end.coming[0][1])
        lowest = 1
        if place >= length or not lowest <= change <= 255:
            return False
        number, unit = self.next_unit(end)
        came = bytearray(unit)
        if place < len(came):
            came[place] = came[place] ^ change
        return self.comes(end, number, unit, bytes(came), True)

    def noise(self, end, text):
        """Bytes come that nobody sent."""
        data = bytes_of(text)
        kind = reading(data).kind
        if kind not in ('header bad', 'data bad'):
            return False
        end.lines.append('n ' + text_of(data))
        arrived_at_station(end.station, reading(data)._replace(kind=kind), True)
        return True

    def comes(self, end, number, unit, came, has_buffer):
        """This comes in the place of a unit: the record of it, and what becomes of it."""
        message = reading(came)
        is_kept = arrived_at_station(end.station, message, has_buffer)
        end.lines.append('%s %d %s' % ('k' if is_kept else 'r', number, came.hex()))
        if is_kept:
            for own, whole in arrived_at_links(end.links, link_message(message.packet[6:])):
                end.lines.append('u up %d %s' % (own, text_of(whole)))
        return True


def played(steps, head='ddplay 1 1.1 1.2'):
    """How many of these steps are made, what the next one is ('bad step', 'full', 'syntax' or None), and both captures."""
    play, count, fault = Play(head), 0, None
    for step in steps:
        fault = play.make(step)
        if fault:
            break
        count += 1
    return count, fault, {side: play.capture(side) for side in 'ab'}
