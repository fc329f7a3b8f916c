"""What `ddcap why` says is answered of less, by the second reading of the rules: without the links that the refused record is about, and of the line
alone. `lines_of_pair(texts, number)` gives the JSON lines `without_link` and `line_alone` of a pair that is refused for this reason, as many of both
as there are; `lines_of_end(text, number)` those of one end. A part of tools/reading/why.py."""
import re

from reading.all import end_listing, pair_listing
from reading.alone import judged_alone
from reading.groups import OF_LINKS
from reading.judging import RULES, judged
from reading.rows import Departs

OF_PACKETS = range(15, 27)  # the reasons that `--line` does not know
ANSWER = re.compile(r'refused ([ab]) (\d+) line (\d+): (\d+) (\w+)( by the other end)?')
ROWS = {'without_link': 'without this link: ', 'line_alone': 'the line alone: '}


def line_of(what, printed):
    """The line on an answer, by the first row that is printed of it."""
    refusal = ANSWER.fullmatch(printed)
    if refusal is None:
        return {'what': what, 'answer': printed}
    side, record, line, number, name, other = refusal.groups()
    line = {'what': what, 'answer': 'refused', 'side': side, 'record': int(record), 'line': int(line), 'number': int(number), 'name': name}
    return {**line, 'accuses': 'other end'} if other else line


def answers_of(number, listing, line_alone, line):
    """Both lines, as far as there are any; where a text departs there is none."""
    for what, reasons, answer in ('without_link', OF_LINKS, listing.without_first), ('line_alone', OF_PACKETS, line_alone):
        try:
            printed = answer() if number in reasons and not line else None
        except Departs:
            printed = None
        if printed is not None:
            yield line_of(what, printed.partition('\n')[0])


def lines_of_pair(texts, number, queued=False, line=False):
    return list(answers_of(number, pair_listing(*texts, queued=queued), lambda: judged(RULES, *texts, queued, True), line))


def lines_of_end(text, number, queued=False, line=False):
    return list(answers_of(number, end_listing(text, queued=queued), lambda: judged_alone(text, True), line))


def row_of(line):
    """The row that has the words of such a line."""
    by_other = ' by the other end' if line.get('accuses') else ''
    refused = 'refused %(side)s %(record)d line %(line)d: %(number)d %(name)s' % line if line['answer'] == 'refused' else line['answer']
    return ROWS[line['what']] + refused + by_other
