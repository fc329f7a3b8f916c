"""The pairs of tools/lists/worked_parts.txt, which says how they are written, and of tools/lists/part_pairs.txt where that is."""
import os
import re
from collections import namedtuple

from lists.pairs import SIDES, WORDS, lines_of

BEFORE = re.compile(r'([rkd]) - (\S+)')
REFUSED = re.compile(r'([ab]) (\d+): (\d+) (\w+)')
ALONE = re.compile(r'accepted ([ab]) alone from (\d+)')
HERE = os.path.dirname(os.path.realpath(__file__))
LISTS = 'worked_parts.txt', 'part_pairs.txt'


class Row(namedtuple('Row', 'place a b answer')):
    """A pair: where it is in the list, the records of both sides, and the answer."""

    @property
    def reason(self):
        """The number of the reason where it is refused, or None."""
        refused = REFUSED.fullmatch(self.answer)
        return int(refused[3]) if refused else None

    def is_answer(self, told):
        """Whether what is told of both captures is the answer of the list."""
        refused, alone = REFUSED.fullmatch(self.answer), ALONE.fullmatch(self.answer)
        if refused:
            side, record, number, name = refused.groups()
            return told == 'refused %s %s line %d: %s %s\n' % (side, record, int(record) + 2, number, name)
        last = []
        if alone:
            last = ['%s is judged alone from line %d on: the capture of %s ends' % (alone[1], int(alone[2]) + 2, 'ba'['ab'.index(alone[1])])]
        lines = told.split('\n')
        return lines[0] == 'accepted' and lines[3:] == [*last, '']


def rows():
    """The rows of the lists."""
    for name in LISTS:
        path = os.path.join(HERE, name)
        for number, text in enumerate(open(path) if os.path.exists(path) else (), 1):
            fields = [field.strip() for field in text.split('|')]
            if not text.startswith('#') and len(fields) == 4:
                yield Row('tools/lists/%s: line %d' % (name, number), *fields[1:])


def lines_in(side, record):
    """The lines of a record of a part."""
    before = BEFORE.fullmatch(record)
    if before is None:
        return lines_of(side, record)
    line, = lines_of(side, '%s 0 %s' % before.groups())
    return [line[:2] + '-' + line[3:]]


def texts_of_row(row):
    """The texts of both captures."""
    texts = []
    for letter, records in ('a', row.a), ('b', row.b):
        side, words = SIDES[letter], [word for word in records.split('; ') if word]
        is_whole = words[:1] == ['whole']
        head = 'ddcap 3 %s' % side.addresses if is_whole else 'ddcap 4 %s part' % side.addresses
        lines = [line for word in words[is_whole:] for record in WORDS.get(word, word).split('; ') for line in lines_in(side, record)]
        texts.append(''.join(line + '\n' for line in [head, *lines]))
    return texts
