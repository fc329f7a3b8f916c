"""Pairs of captures with their links changed at random, and right below the links: what a change leaves of the data messages is numbered and
acknowledged anew, and each side keeps the other's packets in their order. So it is the links that a judge stops at. A part of
tools/tests/test_queued."""
from reading.player.units import data_reading, data_unit

LINK_EVENTS = 'open', 'accept', 'reject', 'in', 'up', 'close'
PLACES = 4  # how far a record is moved at most


class NotPlain(ValueError):
    """The pair has repeats, losses or noise: it is left as it is."""


class Side:
    """The records of one side. A data message is its packet, and one that is kept is `None` for the next packet of the other side; all other
    records are their lines."""

    def __init__(self, text):
        self.head, *lines = text.splitlines()
        self.records, numbers = [], 0
        for line in lines:
            verb, *words = line.split(' ')
            unit = b'' if verb == 'u' or words[-1] == '-' else bytes.fromhex(words[-1])
            if verb not in 'usrk' or verb == 'r' and unit[:1] == b'\x81':
                raise NotPlain(line)
            if verb == 's' and unit[:1] == b'\x81':
                numbers += 1
                data = data_reading(unit)
                if data.kind != 'data' or data.num != numbers % 256:
                    raise NotPlain(line)
                self.records.append(data.packet)
            else:
                self.records.append(None if verb == 'k' else line)
        if sum(line == 'u start' for line in lines) != 1 or 'u halt' in lines:
            raise NotPlain(self.head)

    def of_links(self):
        """The places of the records that the links meet."""
        return [at for at, record in enumerate(self.records)
                if not isinstance(record, str) or record.split(' ')[:1] == ['u'] and record.split(' ')[1] in LINK_EVENTS]

    def change(self, chance):
        """Leaves a record of the links out, makes it twice, or moves it."""
        places = self.of_links()
        if not places:
            return
        at = chance.choice(places)
        record = self.records[at] if chance.random() < 0.3 else self.records.pop(at)
        if chance.random() < 0.75:
            lowest = places[0]
            self.records.insert(max(lowest, min(len(self.records), at + chance.randint(-PLACES, PLACES))), record)

    def packets(self):
        return [record for record in self.records if isinstance(record, bytes)]

    def units(self):
        """All units of the side, as lines without their verb, each with the place of its packet among the packets, or None."""
        kept, numbers, units = 0, 0, []
        for record in self.records:
            if record is None:
                kept += 1
            elif isinstance(record, bytes):
                numbers += 1
                units.append((data_unit(kept % 256, numbers % 256, record).hex(), numbers - 1))
            elif record.startswith('s '):
                units.append((record[2:], None))
        return units


def text_of(own, other):
    """The capture of a side beside the other one."""
    units = other.units()
    place_of = {packet: hint for hint, (_, packet) in enumerate(units) if packet is not None}
    mine, kept, lines = iter(own.units()), 0, [own.head]
    for record in own.records:
        if record is None:
            lines.append('k %d %s' % (place_of[kept], units[place_of[kept]][0]))
            kept += 1
        elif isinstance(record, bytes) or record.startswith('s '):
            lines.append('s ' + next(mine)[0])
        else:
            lines.append(record)
    return '\n'.join(lines) + '\n'


def changed_pair(texts, changes, chance):
    """Both captures, after so many changes. `NotPlain` where they can't be numbered anew."""
    sides = [Side(text) for text in texts]
    for _ in range(changes):
        chance.choice(sides).change(chance)
    for own, other in zip(sides, reversed(sides)):
        more = own.records.count(None) - len(other.packets())
        for _ in range(max(0, more)):
            at = len(own.records) - 1 - own.records[::-1].index(None)
            own.records.pop(at)
    return [text_of(own, other) for own, other in (sides, sides[::-1])]
