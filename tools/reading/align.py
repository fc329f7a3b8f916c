"""Which unit of the other side each receipt of a capture was, told apart from the program, by the bytes alone. `aligned(a, b)` gives both captures in
format 1 with these units as hints, what is printed of them, and the status. `without_hints(text)` is a capture as a recorder writes it that counts no
units: in format 2, with 0 throughout."""
from reading.judging import DAMAGED
from reading.packets import read_unit


def words_of(text):
    """The head of a capture and its records, each as its words."""
    head, *records = [line.split(' ') for line in text.split('\n')[:-1]]
    return head, records


def written(head, records):
    return ''.join(' '.join(words) + '\n' for words in [head, *records])


def without_hints(text):
    head, records = words_of(text)
    return written(['ddcap', '2', *head[2:]], [[words[0], '0', words[2]] if words[0] in 'rk' else words for words in records])


def is_damaged(digits):
    return read_unit(digits.replace('-', '')) in DAMAGED


def would_do(received, unit):
    """Whether these bytes may have been received of this unit."""
    return unit == received or is_damaged(received)


class Side:
    """The receipts of one side beside the units of the other one."""

    def __init__(self, records, units):
        self.units, self.notes, self.hints = units, [], []
        self.receipts = [(line, words[2]) for line, words in enumerate(records, 2) if words[0] in 'rk']
        next_unit, last, self.found = 0, None, 0
        for line, received in self.receipts:
            unit = self.first(received, next_unit) if self.found == len(self.hints) else None
            if unit is not None:
                self.tell(last, next_unit, unit)
                self.found += 1
                last = line, received, unit
            elif self.found == len(self.hints):
                self.tell(last, next_unit, len(units))
                self.notes.append('line %d: no unit from %d on would do' % (line, next_unit))
                last = None
            self.hints.append(next_unit if unit is None else unit)
            next_unit = self.hints[-1] + 1
        self.tell(last, next_unit, len(units))

    def first(self, received, next_unit):
        return next((unit for unit in range(next_unit, len(self.units)) if would_do(received, self.units[unit])), None)

    def tell(self, last, begin, end):
        """Tells of the last receipt that got a unit, where units that none got would have done as well."""
        if last:
            line, received, unit = last
            others = sum(would_do(received, other) for other in self.units[begin:end])
            if others:
                self.notes.append('line %d: unit %d, the first of %d that would do' % (line, unit, others + 1))


def aligned(a, b):
    """Both captures, what is printed, and the status."""
    heads, records = zip(*map(words_of, (a, b)))
    units = [[words[1] for words in mine if words[0] == 's'] for mine in records]
    sides = [Side(mine, other) for mine, other in zip(records, reversed(units))]
    texts = []
    for head, mine, side in zip(heads, records, sides):
        hints = iter(side.hints)
        texts.append(written(['ddcap', '1', *head[2:]], [[words[0], str(next(hints)), words[2]] if words[0] in 'rk' else words for words in mine]))
    counts = tuple(number for side in sides for number in (side.found, len(side.receipts)))
    printed = 'aligned %d of %d receipts of a, %d of %d of b\n' % counts
    printed += ''.join('%s %s\n' % (letter, note) for letter, side in zip('ab', sides) for note in side.notes)
    return texts, printed, 0 if counts[0] == counts[1] and counts[2] == counts[3] else 1
