"""`draw --all`: the rows of both captures with a mark at each refused record of the list, beside a second reading (tools/reading/marked.py); and its
pictures, which have a frame around each. A part of tools/tests/test_all."""
import os
import re
import xml.etree.ElementTree as xml

from reading.marked import drawn_all, refusals_of, rows_of_all
from tests.all.told import goes_on, listing_of, texts_read, ways_of
from tests.program import run

SVG = '{http://www.w3.org/2000/svg}'
MARK = re.compile(r'  <== refused ([ab]: \d+ \w+)(?: (b: \d+ \w+))?$')
# the words, and what the reading takes for them
RANGES = ([], {}), (['--rows', '6'], {'rows': 6}), (['--rows', '200'], {'rows': 200}), (['--from', 'b:4', '--rows', '9'], {'from_': (1, 4), 'rows': 9})
MOST_LETTERS = 110  # of the words above a picture, which are cut where they are some more


def without_marks(text):
    """The rows themselves."""
    return [MARK.sub('', row).rstrip() for row in text.splitlines()]


def fault_of_picture(words, paths, listing, texts):
    """What is wrong with a picture, or None: a frame for each refused record that is drawn, beside the sign in the key; and the words above have
    the refusals, as far as there is room."""
    path = os.path.join(os.path.dirname(paths[0]), 'picture.svg')
    ended = run('draw', '--all', '--svg', path, *words, *paths)
    picture = xml.parse(path).getroot()
    frames = [rect for rect in picture.iter(SVG + 'rect') if rect.get('class') == 'refused']
    told, _ = refusals_of(listing)
    drawn = {(record.side, record.line - 2) for row in rows_of_all(*texts, listing) for record in row}
    framed = sum((record.side, record.line - 2) in told for row in rows_of_all(*texts, listing) for record in row)
    above = ' '.join(text.text or '' for text in list(picture.iter(SVG + 'text'))[:3])
    if ended != ('', '', 1) or len(frames) != framed or not drawn:
        return 'the picture: %r, %d frames, where %d are wanted' % (ended, len(frames), framed)
    wanted = 'refused ' + ', '.join('%s %d line %d: %s' % ('ab'[side], place, place + 2, reason[3:]) for (side, place), reason in told.items())
    return None if wanted[:MOST_LETTERS] in above else 'the words above the picture: %r' % above


def faults_of_marked(words, texts, paths, got):
    """How `draw --all` of a pair is wrong, of which the list is printed so, each a fault or None."""
    way = ways_of(words)
    if not goes_on(got[0]):
        for more, _ in RANGES[1:]:
            plain, printed = run('draw', *way, *more, *paths), run('draw', '--all', *way, *more, *paths)
            yield None if printed == plain else 'draw --all %s: %r, where %r is wanted' % (' '.join(more), printed, plain)
        return
    listing, read = listing_of(words, texts), texts_read(texts)
    listing.printed()
    for more, asked in RANGES:
        printed, wanted = run('draw', '--all', *way, *more, *paths), drawn_all(*read, listing, **asked)
        yield None if printed == (wanted, '', 1) else 'draw --all %s: %r, where %r is wanted' % (' '.join(more), printed, wanted)
    fault = fault_of_picture(way, paths, listing, read)
    yield 'draw --all --svg: %s' % fault if fault else None
