"""A second reading of what `ddcap draw --all` prints: the rows of tools/reading/ladder.py, judged to the end, with a mark at each refused record.
`drawn_all(a, b, listing, from_, rows)` is the text for both captures, in format 1 or 3, of which that is the list (tools/reading/all.py), judged to
its end; `rows_of_all` are its rows, each as its records."""
import re

from reading.ladder import RECORDS_PER_ROW, records_of, rows_of, text_of, told, woven

REFUSED = re.compile(r'refused ([ab]) (\d+) line \d+: (\d+ \w+)')
SIGN, MARKED = '  <== refused', 80  # and the column behind which it is


def refusals_of(listing):
    """Of each refusal of the list the side and number of its record, and its words; and the place of the last one, if that ends it, or None. One
    more than are told ends it too."""
    found = [REFUSED.match(step.judgement.said) for step in listing.steps]
    places = [('ab'.index(each[1]), int(each[2])) for each in found if each]
    told = {place: '%s: %s' % (each[1], each[3]) for place, each in zip(places[:listing.refusals + 1], found)}
    return told, places[-1] if len(places) > listing.refusals else None


def range_of(order, first, from_, rows):
    """The records that are looked at, and whether the first of them has the first row: from a line on, or from the first record, or from so many
    records of its side before the first refused one that this is in the middle."""
    side, place = first
    if from_ is None and place > rows // 2:
        from_ = side, place + 2 - rows // 2
    start = 0 if from_ is None else next((at for at, record in enumerate(order) if (record.side, record.line) == from_), len(order))
    return order[start:start + RECORDS_PER_ROW * rows], from_ is not None


def rows_and_more(a, b, listing, from_, rows):
    sides = [list(records_of(0, a)), list(records_of(1, b))]
    refusals, final = refusals_of(listing)
    order = told(sides, final)
    kept, is_pinned = range_of(order, next(iter(refusals)), from_, rows)
    last = sides[final[0]][final[1]] if final else None
    ends = last if last in kept else None
    shown = rows_of(woven([record for record in kept if record is not ends], ends, is_pinned), ends)[:rows]
    return sides, shown, last, order


def rows_of_all(a, b, listing, from_=None, rows=40):
    return rows_and_more(a, b, listing, from_, rows)[1]


def marks_of(row, refusals):
    """The marks of the refused records of a row, a's first."""
    found = [(record.side, record.line - 2) for record in sorted(row, key=lambda record: record.side)]
    return ' '.join(refusals[place] for place in found if place in refusals)


def drawn_all(a, b, listing, from_=None, rows=40):
    """What `draw --all` prints."""
    refusals, _ = refusals_of(listing)
    sides, shown, last, order = rows_and_more(a, b, listing, from_, rows)
    text = ''
    for row in shown:
        words, marks = text_of(sides, row, last, order).rstrip('\n').removesuffix(SIGN), marks_of(row, refusals)
        text += ('%-*s%s %s' % (MARKED, words, SIGN, marks) if marks else words) + '\n'
    return text
