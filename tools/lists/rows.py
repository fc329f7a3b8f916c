"""The rows of tools/lists/rows.txt, which says how they are written: what is there, read line by line, and what its braces stand for."""
import os
import re
import sys

from captures import with_check, word

PATH = os.path.join(os.path.dirname(os.path.abspath(__file__)), 'rows.txt')
HEAD = 'ddplay 1 1.1 1.2\n'
CAPTURE_HEADS = {'a': 'ddcap %d 1.1 1.2', 'b': 'ddcap %d 1.2 1.1'}
# the steps whose records have lines in format 3 alone
OF_THREE = ['boot', 'abort', 'drop']

# how the last step of a row ends, by the word in front of it
ENDS = {'?': None, '!': 'bad step', 'full': 'full'}

BRACE = re.compile(r'\{(?:(#)|([0-9a-f]{2})\*(\d+)|(\d+)(?:\+(\d+))?(?::(byte|word|ack))?)\}')
TIMES = re.compile(r'(\d+) times (.*)')


class Block:
    """A set-up or a row. `before` and `asked` are its own steps, `lines` those of each capture that its own steps write; `from_` is the set-up
    whose steps and lines come first, or None. `stopped` says how the last step ends, where it can't be made."""

    def __init__(self, name, place):
        self.name, self.place = name, place
        self.from_, self.stopped = None, None
        self.before, self.asked, self.pins = [], [], []
        self.lines = {'a': [], 'b': []}

    def all_before(self):
        """The steps before what the row asks, the set-up's first."""
        return (self.from_.all_before() if self.from_ else []) + self.before

    def steps(self):
        """All its steps."""
        return self.all_before() + self.asked

    def written(self):
        """The lines of both captures after their heads, the set-up's first."""
        first = self.from_.written() if self.from_ else {side: [] for side in 'ab'}
        return {side: first[side] + self.lines[side] for side in 'ab'}

    def captures(self):
        """The lines of both captures, their heads first."""
        made = self.steps()[:-1] if self.stopped else self.steps()
        number = 3 if any(step.split(' ')[1] in OF_THREE for step in made) else 1
        written = self.written()
        return {side: [CAPTURE_HEADS[side] % number] + written[side] for side in 'ab'}


def counted(first, step, form, turn):
    """A number that counts, in this form, at this turn of a repetition."""
    number = int(first) + turn * int(step or 1)
    if form == 'byte':
        return '%02x' % (number % 256)
    if form in ('word', 'ack'):
        return word(number % 4096 + (0x8000 if form == 'ack' else 0)).hex()
    return str(number)


def spelled(text, turn=0):
    """This step or line with its braces filled in, at this turn of a repetition."""
    return ' '.join(spelled_word(part, turn) for part in text.split(' '))


def spelled_word(text, turn):
    """The same of one of its words."""
    checked, field, end = '', '', 0
    for brace in BRACE.finditer(text):
        check, byte, times, first, step, form = brace.groups()
        field += text[end:brace.start()]
        if check:
            checked, field = checked + with_check(bytes.fromhex(field)).hex(), ''
        else:
            field += byte * int(times) if byte else counted(first, step, form, turn)
        end = brace.end()
    return checked + field + text[end:]


def repeated(text):
    """The steps or lines that this stands for: itself, or those that are repeated."""
    times = TIMES.fullmatch(text)
    if times is None:
        return [spelled(text)]
    return [spelled(part, turn) for turn in range(int(times[1])) for part in times[2].split('; ')]


def lines_of(path):
    """The lines of the file, with the number of each. One that ends in `;` goes on in the next."""
    number, begun = 0, ''
    with open(path) as text:
        for place, line in enumerate(text, 1):
            line = begun + (' ' + line.strip() if begun else line.rstrip('\n'))
            number = number if begun else place
            begun = line if line.endswith(';') else ''
            if not begun:
                yield number, line


def rows_of(path=PATH):
    """The set-ups, by name, and the rows of the file, in their order."""
    set_ups, rows, block = {}, [], None
    for number, line in lines_of(path):
        word_, _, rest = line.partition(' ')
        if word_ in ('', '#'):
            continue
        if word_ in ('--', '=='):
            block = Block(rest, number)
            if word_ == '--':
                set_ups[rest] = block
            else:
                rows.append(block)
        elif not reads(block, set_ups, word_, rest):
            sys.exit('%s: line %d: what is this?' % (path, number))
    return set_ups, rows


def reads(block, set_ups, word_, rest):
    """Whether this line belongs to the block; then it is put there."""
    is_open = not (block.asked or any(block.lines.values()))
    if word_ == 'from' and is_open and not block.before:
        block.from_ = set_ups[rest]
    elif word_ == 'pins':
        block.pins += rest.split(', ')
    elif word_ in ENDS and block.stopped is None and not any(block.lines.values()):
        block.asked += repeated(rest)
        block.stopped = ENDS[word_]
    elif word_ == '=' and rest[:2] in ('a ', 'b '):
        block.lines[rest[0]] += repeated(rest[2:])
    elif (word_ in ('a', 'b') or rest.startswith('times ')) and is_open:
        block.before += repeated(word_ + ' ' + rest)
    else:
        return False
    return True
