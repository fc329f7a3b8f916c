"""What a pair of captures goes through, told apart from the program: which of the 88 rows of the tables each record is, by the station of
tools/reading/station.py before it, and how often. `covered(a, b)` gives the first line of the answer, and the counts of both sides."""
from collections import Counter

from reading.judging import DAMAGED, NAMES, RULES, Side
from reading.packets import HEADER_BAD, read_nsp, read_packet, read_unit
from reading.rows import Refused
from reading.station_rules import CAUSED, STATES

UNITS = ['STRT', 'STACK', 'ACK', 'NAK', 'REP', 'DATA']
EVENTS = ['OPEN', 'ACCEPT', 'REJECT', 'IN', 'UP', 'CLOSE', 'BOOT', 'ABORT']
ABOVE, UNSENT = 'link packet lost above', 'link packet never sent'
CARRIED = 'interrupt', 'interrupted'

# the kinds of tools/reading/packets.py, in the order of the rows
MESSAGES = {
    'CI': 'CI', 'connect ack': 'CACK', 'CC': 'CC', 'DI': 'DI', 'DC': 'DC', 'segment': 'SEG', 'data ack': 'DACK', 'link service': 'LINKSERV',
    'interrupt': 'INTERRUPT', 'other-data ack': 'OACK', 'no operation': 'NOP',
}

ROWS = ['HALTED user start'] + ['%s user halt' % state for state in STATES]
ROWS += ['ISTRT sends STRT', 'ASTRT sends STACK']
ROWS += ['RUNNING sends ' + what for what in ('ACK', 'NAK 1 2 3 8', 'NAK 9 16 17', 'REP', 'data, new', 'data, again')]
ROWS += ['%s gets %s' % (state, unit) for state in ('HALTED', 'ISTRT') for unit in UNITS]
ROWS += ['ASTRT gets ' + what for what in ('STRT', 'STACK', 'ACK RESP 0', 'ACK RESP not 0', 'NAK', 'REP', 'DATA RESP 0, next, kept',
                                           'DATA RESP 0, next, no buffer', 'DATA RESP 0, repeat or gap', 'DATA RESP not 0')]
ROWS += ['RUNNING gets ' + what for what in ('STRT', 'STACK', 'ACK', 'NAK', 'REP NUM R', 'REP NUM not R', 'DATA, next, kept',
                                             'DATA, next, no buffer', 'DATA, repeat or gap')]
ROWS += ['%s damage %s' % (state, what) for state in STATES for what in ('header bad', 'data bad')]
ROWS += ['%s user boot' % state for state in STATES]
ROWS += ['link user ' + event for event in EVENTS]
ROWS += ['link %s %s' % (what, message) for what in ('sends', 'gets') for message in MESSAGES.values()]
ROWS += [ABOVE, UNSENT]


def of_link(what, packet):
    """The row of the message of the links in a packet, if it has one."""
    packet = read_packet(packet)
    if packet is None or packet.nsp is None or packet.returned:
        return []
    message = read_nsp(packet.nsp)
    return ['link %s %s' % (what, MESSAGES[message.kind])] if message else []


def of_sending(station, unit):
    """The rows of a unit that is sent."""
    row = '%s sends ' % station.state
    if unit.kind == 'data':
        is_new = station.next == station.given + 1
        return [row + ('data, new' if is_new else 'data, again')] + (of_link('sends', unit.packet) if is_new else [])
    if unit.kind == 'NAK':
        return [row + ('NAK 1 2 3 8' if unit.reason in CAUSED else 'NAK 9 16 17')]
    return [row + unit.kind]


def of_data(station, unit, kept):
    """What is told apart of data that come."""
    if unit.num != (station.received + 1) % 256:
        return 'repeat or gap'
    return 'next, kept' if kept else 'next, no buffer'


def of_packet(unit, verb):
    """The row of the packet in a unit that comes, if it is kept."""
    if verb == 'd':
        return [ABOVE]
    return of_link('gets', unit.packet) if verb == 'k' else []


def of_arrival(station, unit, verb):
    """The rows of a sound unit that comes."""
    kept = verb != 'r'
    state, name = station.state, UNITS[[kind.upper() for kind in UNITS].index(unit.kind.upper())]
    if state == 'ASTRT' and name in ('ACK', 'DATA'):
        name += ' RESP 0' if unit.resp == 0 else ' RESP not 0'
    if state == 'RUNNING' and name == 'REP':
        name += ' NUM R' if unit.num == station.received % 256 else ' NUM not R'
    if name == 'DATA RESP 0' or state == 'RUNNING' and name == 'DATA':
        name += ', ' + of_data(station, unit, kept)
    return ['%s gets %s' % (state, name)] + of_packet(unit, verb)


def of_damage(station, unit):
    """The row of what shows damage."""
    return ['%s damage %s' % (station.state, 'header bad' if unit == HEADER_BAD else 'data bad')] if unit in DAMAGED else []


def of_receipt(side, other, hint, text, verb):
    """The rows of a receipt, by the unit that its hint names."""
    if hint >= len(other.units):
        return []
    sent, unit = other.units[hint][:2]
    if text == sent:
        return of_arrival(side.station, unit, verb)
    return of_damage(side.station, read_unit(text.replace('-', '')))


def of_event(station, words):
    """The rows of a user's record."""
    if words[0] in CARRIED:
        return []
    if len(words) > 1:
        return ['link user ' + words[0].upper()]
    return ['%s user %s' % (station.state, words[0])] + (['link user BOOT'] if words[0] == 'boot' else [])


def rows_of(side, other):
    """The rows of the next record, if it can be made."""
    verb, *words = side.records[side.next]
    if verb == 'u':
        return of_event(side.station, words)
    if verb == 'x':
        return [UNSENT]
    if verb == 's':
        unit = read_unit(words[0].replace('-', ''))
        return of_sending(side.station, unit) if unit.resp is not None or unit.num is not None or unit.kind in UNITS else []
    if verb == 'n':
        return of_damage(side.station, read_unit(words[0].replace('-', '')))
    return of_receipt(side, other, int(words[0]), words[1], verb)


def next_side(sides):
    """Whose record is next, and the reason where neither can go on."""
    able = [letter for letter in (0, 1) if not sides[letter].has_ended() and not sides[letter].waits(sides[1 - letter])]
    if able:
        return able[0], None
    letter = min(letter for letter in (0, 1) if not sides[letter].has_ended())
    return letter, 3 if sides[1 - letter].has_ended() else 4


def covered(a, b):
    """The first line of the answer to these captures, and how often each side went through each row."""
    sides, counts = (Side(RULES, a), Side(RULES, b)), (Counter(), Counter())
    while not all(side.has_ended() for side in sides):
        letter, reason = next_side(sides)
        side, other = sides[letter], sides[1 - letter]
        rows = [] if reason else rows_of(side, other)
        try:
            if reason:
                raise Refused(reason)
            side.make(other)
        except Refused as refusal:
            place = side.next
            return 'refused %s %d line %d: %d %s\n' % ('ab'[letter], place, place + 2, refusal.reason, NAMES[refusal.reason - 1]), counts
        counts[letter].update(rows)
    return 'accepted\n', counts


def table(counts, rows=len(ROWS)):
    """What is printed of the counts of both sides, of so many rows that are counted, after the first line."""
    lines = ['%s went through %d of %d rows' % (letter, sum(n > 0 for n in of.values()), rows) for letter, of in zip('ab', counts)]
    lines.append('%-34s %6s %6s' % ('row', 'a', 'b'))
    for row in ROWS:
        if any(of[row] for of in counts):
            lines.append('%-34s %6s %6s' % (row, *(of[row] or '.' for of in counts)))
    return ''.join(line + '\n' for line in lines)
