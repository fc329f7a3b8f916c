"""A second reading of what `ddcap draw` prints: the rows of two captures, apart from the program. `drawn(a, b, refused, from_, rows)` is the text
that it prints of the captures of both sides, in format 1 or 3; `refused` is the side and number of the refused record, or None."""
from collections import namedtuple

from reading.packets import DATA_BAD, HEADER_BAD, MALFORMED, read_nsp, read_packet, read_unit

# As many records are looked at for each row that is drawn.
RECORDS_PER_ROW = 4
# of the words between both sides, of a side, and of a line number; with so many words both bars are in their places
COLUMNS, SIDE, NUMBER = 30, 22, 6
# what is beside a line with this letter
NOTES = {'k': 'kept', 'd': 'dropped', 'x': 'composed'}

# A record: its side, its line, its letter, its hint, its bytes as digits, the words of a `u` line, and the number of the unit that it sends
Record = namedtuple('Record', 'side line letter hint digits words unit')


# ---- what records say

def content_of(packet):
    """The message of a link in a packet, in a few words."""
    packet = read_packet(packet)
    if packet is None or packet.nsp is None or packet.returned:
        return ''
    message = read_nsp(packet.nsp)
    if message is None:
        return ''
    link = '%s>%s' % (message.source, message.destination)
    number = message.segnum if message.segnum is not None else message.words[0] & 4095 if message.words else 0
    return {
        'CI': ' CI %s' % message.source,
        'CC': ' CC ' + link,
        'DI': ' DI ' + link,
        'DC': ' DC ' + link,
        'segment': ' seg %d %s' % (number, link),
        'data ack': ' dack %s %d' % (link, number),
        'link service': ' service ' + link,
        'interrupt': ' service ' + link,
        'other-data ack': ' oack ' + link,
        'connect ack': ' cack %s' % message.destination,
        'no operation': ' nop',
    }[message.kind]


def said(digits, is_brief=False):
    """What bytes say."""
    unit = read_unit(digits)
    if unit in (HEADER_BAD, DATA_BAD):
        return unit.kind
    if unit == MALFORMED:
        return 'no message'
    if unit.kind == 'data':
        return 'DATA %d/%d' % (unit.num, unit.resp) + ('' if is_brief else content_of(unit.packet))
    return {'ACK': 'ACK /%d' % unit.resp, 'NAK': 'NAK %s /%d' % (unit.reason, unit.resp), 'REP': 'REP %d' % unit.num}.get(unit.kind, unit.kind)


def is_data(digits):
    """Whether bytes are a data message."""
    return read_unit(digits).kind == 'data'


def records_of(side, text):
    """The records of a capture in format 1 or 3; a line that departs is the last one, with the letter `!`."""
    units = 0
    for number, line in enumerate(text.splitlines()[1:]):
        letter, *words = line.split(' ')
        hint = int(words[0]) if letter in 'rkd' else None
        digits = words[-1].replace('-', '') if letter not in 'u!' else ''
        yield Record(side, number + 2, letter, hint, digits, words if letter == 'u' else None, units if letter == 's' else None)
        units += letter == 's'


# ---- the order in which records are drawn

def told(sides, refused):
    """The records in the order in which the judge makes them, to the refused one or a line that departs: of a as long as none of its units is missing,
    else one of b."""
    places, sent, passed, order = [0, 0], [0, 0], [-1, -1], []
    while True:
        nexts = [sides[side][places[side]] if places[side] < len(sides[side]) else None for side in (0, 1)]
        ready = [record for record in nexts if record and (record.hint is None or record.hint < max(sent[1 - record.side], passed[record.side] + 1))]
        if not ready:
            return order + ([sides[refused[0]][refused[1]]] if refused else [])
        record = ready[0]
        if record.letter == '!':
            return order
        side = record.side
        order.append(record)
        if (side, places[side]) == refused:
            return order
        places[side] += 1
        sent[side] += record.letter == 's'
        passed[side] = passed[side] if record.hint is None else record.hint


def woven(records, last, pinned):
    """These records as they are drawn, with `last` after them: after a sending its receipt, if that is next on its side; else of a as long as
    none waits, else one of b that doesn't; where both wait, the sending that comes soonest. The first one is the first where that is `pinned`."""
    left, order = list(records), []

    def receipt_of(record):
        others = [other for other in left if other.side != record.side]
        return next((place for place, other in enumerate(others) if other.hint == record.unit), None)

    def waits(record):
        if record.letter == 's':
            return receipt_of(record) is not None
        return record.hint is not None and any(other.side != record.side and other.unit == record.hint for other in left)

    while left:
        nexts = [next((record for record in left if record.side == side), None) for side in (0, 1)]
        ready = [record for record in nexts if record and not waits(record)]
        if pinned and not order:
            ready = [left[0]]
        elif order and order[-1].letter == 's' and nexts[1 - order[-1].side] and nexts[1 - order[-1].side].hint == order[-1].unit:
            ready = [nexts[1 - order[-1].side]]
        if not ready:
            sendings = [record for record in nexts if record and record.letter == 's']
            ready = sorted(sendings, key=lambda record: (receipt_of(record), record.side))
        order.append(ready[0])
        left.remove(ready[0])
    return order + ([last] if last else [])


def rows_of(order, last):
    """The rows: a record, or a sending and its receipt after it."""
    rows = []
    for record in order:
        if rows and record is not last and len(rows[-1]) == 1 and rows[-1][0].side != record.side \
                and rows[-1][0].unit is not None and rows[-1][0].unit == record.hint:
            rows[-1].append(record)
        else:
            rows.append([record])
    return rows


# ---- the text of a row

def is_again(sides, record):
    """Whether a unit was sent before: a number since the start, or a STRT or STACK by the record before."""
    before = sides[record.side][:record.line - 2]
    unit = read_unit(record.digits)
    if unit.kind in ('STRT', 'STACK'):
        return bool(before) and before[-1].letter == 's' and read_unit(before[-1].digits).kind == unit.kind
    if unit.kind != 'data':
        return False
    starts = [place for place, other in enumerate(before) if other.words == ['start']]
    given = []
    for other in before[starts[-1] if starts else 0:]:
        if other.letter == 's' and is_data(other.digits):
            number = read_unit(other.digits).num
            if number not in given[-255:]:
                given.append(number)
    return unit.num in given[-255:]


def note_of(record):
    """What is beside the line number."""
    if record.letter == 'u':
        words = list(record.words)
        if words[0] in ('in', 'up', 'interrupt', 'interrupted'):
            count = len(words[2].replace('-', '')) // 2
            words[2:] = [str(count), 'byte' if count == 1 else 'bytes']
        return ' '.join(words)
    if record.letter in NOTES:
        return NOTES[record.letter]
    return 'not kept' if record.letter == 'r' and is_data(record.digits) else ''


def fitted(words, room):
    """Words in so many columns, cut where they have more."""
    return words if len(words) <= room else words[:room - 2] + '..'


def cell(record, is_left, width):
    """A line number with its note, in so many columns."""
    if record is None:
        return ' ' * width if is_left else ''
    room = width - 2 - max(len(str(record.line)), NUMBER)
    note = note_of(record)
    return '%6d %*s ' % (record.line, room, note) if is_left else ' %-*s %d' % (room, note, record.line)


def centred(words, fill, width):
    """Words between two rows of this letter, in so many columns."""
    words = ' %s ' % words
    left = (width - len(words)) // 2
    return fill * left + words + fill * (width - len(words) - left)


def sent_words(sides, row, room):
    """The words of a sending."""
    sending = row[0]
    again = 'again ' if is_again(sides, sending) else ''
    words = again + said(sending.digits)
    if len(row) == 2 and said(row[1].digits) != said(sending.digits):
        words += ' ~' + said(row[1].digits)
        if len(words) > room:
            words = again + said(sending.digits, True) + ' ~' + said(row[1].digits, True)
    return words


def came_words(sides, record, made, room):
    """The words of a receipt alone."""
    sender = 'ab'[1 - record.side]
    sending = next((other for other in sides[1 - record.side] if other.unit == record.hint), None)
    # bytes that show no damage and are not those of the unit: that is refused, and may read alike
    is_changed = sending in made and record.digits != sending.digits and read_unit(record.digits) not in (HEADER_BAD, DATA_BAD)
    if sending not in made or any(other.hint is not None and other.hint >= record.hint for other in sides[record.side][:record.line - 2]):
        words = '~' * is_changed + '%s of %s unit %d'
        full = words % (said(record.digits), sender, record.hint)
        return full if len(full) <= room else words % (said(record.digits, True), sender, record.hint)
    damage = '' if said(record.digits) == said(sending.digits) and not is_changed else ' ~' + said(record.digits)
    words = '%s of %s line %d' % (said(sending.digits), sender, sending.line) + damage
    if len(words) <= COLUMNS:
        return words
    damage = '' if said(record.digits, True) == said(sending.digits, True) and not is_changed else ' ~' + said(record.digits, True)
    return '%s of %s line %d' % (said(sending.digits, True), sender, sending.line) + damage


def words_of(sides, row, made, room):
    """The words between both sides."""
    record = row[0]
    if record.letter == 'u':
        return ''
    if record.letter == 'x':
        return 'packet' + content_of(bytes.fromhex(record.digits))
    if record.letter == 's':
        return sent_words(sides, row, room)
    return 'noise ~' + said(record.digits) if record.letter == 'n' else came_words(sides, record, made, room)


def mark_of(sides, row, last):
    """How the arrow of a sending ends."""
    record = row[0]
    if len(row) == 2:
        return '><'[record.side]
    comes = [other.hint for other in sides[1 - record.side] if other.hint is not None and other.hint >= record.unit]
    # the refused record is told before those after it; and of a text that departs it is not known what it does not have
    departs = any(other.letter == '!' for side in sides for other in side[-1:])
    return '.' if comes[:1] == [record.unit] or (record is last or departs) and not comes else 'x'


def middle(sides, row, last, words, width):
    """The columns between both sides."""
    record = row[0]
    if record.letter == 'u':
        return ' ' * width
    if record.letter == 'x':
        words = ' %s ' % words
        return ('-%s-|' % words).ljust(width) if record.side == 0 else ('|-%s-' % words).rjust(width)
    if record.letter == 's':
        arrow, mark = centred(words, '-', width - 1), mark_of(sides, row, last)
        return arrow + mark if record.side == 0 else mark + arrow
    arrow = centred(words, '.', width - 1)
    return '<' + arrow if record.side == 0 else arrow + '>'


def widths_of(sides, row, made):
    """The columns of both sides, and the words between them. A bar moves where the words beside it need that: for a user's into the empty middle, for
    a unit's to the side that sent."""
    record = row[0]
    widths = [SIDE, SIDE]
    if record.letter == 'u':
        widths[record.side] = max(SIDE, max(len(str(record.line)), NUMBER) + len(note_of(record)) + 2)
        return widths, ''
    sender = record.side if record.letter in 'sx' else 1 - record.side
    room = COLUMNS + SIDE - 1 - (max(len(str(record.line)), NUMBER) if sender == record.side else 0)
    words = fitted(words_of(sides, row, made, room), room)
    widths[sender] -= max(len(words) - COLUMNS, 0)
    return widths, words


def text_of(sides, row, last, made):
    """The text of a row."""
    cells = [next((record for record in row if record.side == side), None) for side in (0, 1)]
    widths, words = widths_of(sides, row, made)
    right = cell(cells[1], False, widths[1])
    right = '%-*s  <== refused' % (widths[1], right) if row[0] is last else right
    return '%s|%s|%s\n' % (cell(cells[0], True, widths[0]), middle(sides, row, last, words, 78 - sum(widths)), right)


def rows_and_more(a, b, refused, from_, rows):
    """Both sides, the rows that are drawn, the refused record, and the records that are made."""
    sides = [list(records_of(0, a)), list(records_of(1, b))]
    order = told(sides, refused)
    last = sides[refused[0]][refused[1]] if refused else None
    kept, room = order, RECORDS_PER_ROW * rows
    if from_:
        start = next((place for place, record in enumerate(order) if (record.side, record.line) == from_), len(order))
        kept = order[start:start + room]
    elif refused:
        kept = order[-room:]
    else:
        kept = order[:room]
    ends = last if last in kept else None
    shown = rows_of(woven([record for record in kept if record is not ends], ends, from_), ends)
    return sides, shown[-rows:] if refused and not from_ else shown[:rows], last, order


def rows_drawn(a, b, refused=None, from_=None, rows=40):
    """The rows that are drawn, each as its records."""
    return rows_and_more(a, b, refused, from_, rows)[1]


def drawn(a, b, refused=None, from_=None, rows=40):
    """What `draw` prints."""
    sides, shown, last, order = rows_and_more(a, b, refused, from_, rows)
    return ''.join(text_of(sides, row, last, order) for row in shown)
