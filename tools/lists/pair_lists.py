"""The lines of the lists in tools/lists/pairs, which say how they are written, and whether an answer is that of a line."""
import os
import re
import sys

from tests.program import TOP

REFUSAL = re.compile(r'([ab]) (\d+): (\d+ \w+)')
COUNTS = r' records (\d+) sent \d+ received \d+ damaged \d+ kept \d+ periods \d+'
QUEUED = 'queued '
LINKS = r' links \d+ up \d+'
ACCEPTANCE = re.compile('accepted\n(a%s)\n(b%s)\n' % (COUNTS + LINKS, COUNTS + LINKS))
LINE_ACCEPTANCE = re.compile('accepted\n(a%s)\n(b%s)\n' % (COUNTS, COUNTS))


class Line:
    """A line of a list: where it is, its turns (of a worked pair its name), and the records of both sides with the answer, or None. `queued` is
    the answer where both are nodes with queues, in the lists of those."""

    def __init__(self, place, fields):
        self.place = place
        self.turns = fields[0].split(', ')
        self.pair = fields[1:4] if len(fields) > 2 else None
        self.queued = fields[4].removeprefix(QUEUED) if len(fields) == 5 else None


def lines_below(name):
    """The lines of the list with this name, by the headings that they are below."""
    path = os.path.join(TOP, 'tools', 'lists', 'pairs', name)
    below, lines = {}, None
    for number, text in enumerate(open(path), 1):
        text = text.rstrip('\n')
        place = '%s: line %d' % (os.path.relpath(path, TOP), number)
        fields = text.split(' | ')
        if text.startswith('#'):
            continue
        if text == '':
            lines = None
        elif lines is None and len(fields) == 1 and text not in below:
            lines = below[text] = []
        elif lines is not None and is_line(fields):
            lines.append(Line(place, fields))
        else:
            sys.exit('%s: what is this?' % place)
    return below


def is_line(fields):
    """Whether a line below a heading has these fields."""
    return len(fields) == 4 or len(fields) == 5 and fields[4].startswith(QUEUED) or len(fields) == 2 and fields[1].startswith('no pair: ')


def is_answer(answer, printed, status, records, line_alone=False):
    """Whether this is printed where that is the answer, with its status. The captures have so many records. Of the line alone no links are
    counted."""
    refusal = REFUSAL.fullmatch(answer)
    if refusal:
        side, record, reason = refusal.groups()
        return (printed, status) == ('refused %s %s line %d: %s\n' % (side, record, int(record) + 2, reason), 1)
    word, *ends = answer.split('; ')
    if word != 'accepted' or len(ends) not in (0, 2):
        raise ValueError('what answer is %r?' % answer)
    accepted = (LINE_ACCEPTANCE if line_alone else ACCEPTANCE).fullmatch(printed)
    if accepted is None or status != 0:
        return False
    line_a, records_a, line_b, records_b = accepted.groups()
    ends = [re.sub(LINKS + '$', '', ' ' + end)[1:] if line_alone else end for end in ends]
    return [int(records_a), int(records_b)] == records and all(line.endswith(' ' + end) for line, end in zip((line_a, line_b), ends))
