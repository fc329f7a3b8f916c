"""What `ddcap why` says of a refused pair, by the reading of tools/reading/judging.py, apart from the program. `said(a, b)` gives it, or None where
nothing is refused: the JSON `lines` `refused`, `record` without the fields of its bytes, `state`, `link`, `begins_running`, `dc_waited`,
`other_node`, `queued`, `without_link` and `line_alone` (tools/reading/less.py); the `rows` of both sides; how many records are `behind` it; and the
`check` where bytes are compared (tools/reading/bytes.py), else None. `said_alone(a, line)` gives the lines and rows of one end without the other (tools/reading/alone.py), with `line`
of its station alone; as `check`, what the other end could have sent, where that is told by numbers. `lines_with_queues(a, b)` gives the lines of `why
--queued`, of the pair as one of nodes with queues."""
from collections import namedtuple

from lists.why_rules import INDENT, wrapped
from reading.alone import FREE, Alone, ByOther, StationAlone, judged_alone
from reading.bytes import check_of, counted
from reading.calls import dc_waited
from reading.judging import NAMES, RECEIPTS, RULES, Side, judged
from reading.less import lines_of_end, lines_of_pair
from reading.packets import read_nsp, read_packet, read_unit
from reading.rows import Refused

Said = namedtuple('Said', 'lines rows behind check')

SENDER = {1, 6, 7, 8, 9, 10, 11, 15, 16, 17, 20, 21, 22, 23}
ACCUSED = {2: 'hints', 3: 'hints', 4: 'hints', 5: 'line', 12: 'claim', 13: 'nobody', 14: 'user', 24: 'claim', 25: 'nobody', 26: 'user', 27: 'claim'}


# what a queue between NSP and DDCMP may explain, and what a recording can't tell before it says that the line was started or halted
BY_QUEUES = {18, 19, 20, 21, 25}
OF_BEFORE = {6, 12, 18}
BEGINNINGS = 'u start', 'u halt', 'u boot'


def accused(number, kind):
    """Whom a reason accuses; of 18 and 19 the record tells."""
    if number in (18, 19):
        return 'sender' if kind in ('s', 'x') else 'user'
    return 'sender' if number in SENDER else ACCUSED[number]


def begins_running(number, records):
    """Whether a rule that asks for a state, or a link, is broken after these records, none of which tells in which state the line is."""
    return number in OF_BEFORE and not any(' '.join(words) in BEGINNINGS for words in records)


ROUTERS, END_NODE = (1, 2), 3  # in bits 0 and 1 of the fourth byte of an Init message


def init_kind(packet):
    """What a packet says that its sender is, or None."""
    if len(packet or ()) < 4 or packet[0] != 1:
        return None
    kind = packet[3] & 3
    return 'router' if kind in ROUTERS else 'end node' if kind == END_NODE else None


def inits(sides):
    """What the first Init message that tells it says, by its side; `sides` are the records of each."""
    found = {}
    for verb, letters in (('s', 'ab'), ('k', 'ba')):
        for letter, records in zip(letters, sides):
            units = [read_unit(words[-1]) for words in records if words[0] == verb]
            kinds = [kind for unit in units if unit.kind == 'data' and (kind := init_kind(unit.packet))]
            if kinds:
                found.setdefault(letter, kinds[0])
    return found


def other_node(number, words, nodes, is_pair):
    """The third node that a refused record names, by whose head it goes between these; None also where heads do not pair."""
    packet = packet_of(words) if number == 16 and not (is_pair and words[0] in RECEIPTS) else None
    named = [node for node in (packet.source, packet.destination) if node not in nodes] if packet else []
    return '%d.%d' % divmod(named[0], 1024) if named else None


def excused(accuses, refused, queued):
    """Who is accused of this line where this is answered of nodes with queues: nobody without a condition, if the record may be one of theirs."""
    if queued['answer'] == 'accepted':
        return 'nobody'
    is_there = queued['answer'] == 'refused' and (queued['side'], queued['record']) == (refused['side'], refused['record'])
    if is_there and queued['number'] not in (3, 4):
        return accuses
    return {'sender': 'sender_without_queue', 'user': 'user_without_queue', 'other end': 'other_end_without_queue'}.get(accuses, accuses)


def run_to(a, b, most, queued=False):
    """Both sides after at most so many records, and how it ended: the side and the reason of a refusal, or None."""
    return run_sides((Side(RULES, a, queued), Side(RULES, b, queued)), most)


def run_sides(sides, most):
    """The same of these sides, with no limit where that is None. The refused record itself may have changed its side."""
    made = 0
    while made != most and not all(side.has_ended() for side in sides):
        able = [letter for letter in (0, 1) if not sides[letter].has_ended() and not sides[letter].waits(sides[1 - letter])]
        letter = able[0] if able else min(letter for letter in (0, 1) if not sides[letter].has_ended())
        try:
            if not able:
                raise Refused(3 if sides[1 - letter].has_ended() else 4)
            else:
                sides[letter].make(sides[1 - letter])
        except Refused as refusal:
            return sides, made, (letter, refusal.reason)
        made += 1
    return sides, made, None


def state_of(letter, side):
    """The variables of a side's station, as its line has them."""
    station = side.station
    return {
        'what': 'state', 'side': 'ab'[letter], 'records': side.next, 'station': station.state, 'start': station.period, 'goes_with': station.partner,
        'r': station.received % 256, 'a': station.acknowledged % 256, 'n': station.given % 256, 't': station.next % 256,
        'open_causes': {str(reason): count for reason, count in station.causes.items() if count}, 'sent': len(side.units), 'front': side.front,
    }


def link_of(letter, link):
    """The numbers of a link that lives."""
    flow = link.flow
    return {
        'what': 'link', 'side': 'ab'[letter], 'own': link.own, 'far': link.far, 'phase': link.phase,
        'segsize': link.segsize if link.phase != 'Calling' else None,
        'given': flow.given % 4096, 'acknowledged': flow.acknowledged % 4096, 'received': flow.received % 4096, 'last_ack': flow.last % 4096,
    }


def queued_link_of(letter, link):
    """The same with queues: how far the link has come, where it has; and of one that is ending no numbers, which a node may have given up."""
    come = {'accepted': link.accepted, 'ran': link.ran, 'said': [None, 'RUN', 'DI'][link.said], 'ending': None}
    line = link_of(letter, link)
    if not link.is_live():
        line = {key: line[key] for key in ('what', 'side', 'own', 'far')}
        line['phase'], come['ending'] = 'ended', 'given up' if link.given_up else link.phase
    return {**line, **(come if any(come.values()) else {})}


# ---- the same in rows

CAUSES = {1: 'header check', 2: 'data check', 3: 'REP response', 8: 'no buffer'}
LINKS_SHOWN = 8


def side_rows(letter, side, named):
    """The rows of a side, as it was before the refused record, which names a link by these addresses there."""
    yield '%s before it (%s, to line %d)' % ('ab'[letter], counted(side.next, 'record'), side.next + 1)
    yield from station_rows('ba'[letter], side.station)
    yield from link_rows([link for link in side.links.links if link.phase != 'Ended'], named)


def station_rows(other, station):
    if station.period == 0:
        yield '  station  HALTED, never started'
        return
    partner = '' if station.partner is None else ', goes with start %d of %s' % (station.partner, other)
    yield '  station  %s, start %d%s' % (station.state, station.period, partner)
    numbers = [number % 256 for number in (station.received, station.acknowledged, station.given, station.next)]
    yield '  numbers  R %d received  A %d acknowledged  N %d given  T %d next to send' % tuple(numbers)
    first, last = (station.acknowledged + 1) % 256, station.given % 256
    if station.given > station.acknowledged:
        spans = [(first, last)] if first <= last else [(first, 255), (0, last)]
        yield '           outstanding %s' % ' and '.join('%d-%d' % span if span[0] < span[1] else str(span[0]) for span in spans)
    causes = ['%d x reason %d (%s)' % (station.causes[reason], reason, name) for reason, name in CAUSES.items() if station.causes[reason]]
    yield from wrapped(INDENT, 'NAKs owed or open: ' + (', '.join(causes) or 'none'))


def link_rows(live, named):
    """The rows of the live links, the one that is named first: of all, or of more than a few of those others of which something is open, and how
    many more there are."""
    own, far = named
    first = [link for link in live if own is not None and link.own == own] or [link for link in live if far is not None and link.far == far]
    others = [link for link in live if link not in first]
    shown = first + others if len(live) <= LINKS_SHOWN else (first + [link for link in others if is_open(link)])[:LINKS_SHOWN]
    for link in shown:
        own, far = ['?' if address is None else address for address in (link.own, link.far)]
        numbers = [number % 4096 for number in (link.flow.given, link.flow.acknowledged, link.flow.received, link.flow.last)]
        words = 'given %d, acknowledged %d, received %d, last acknowledged %d' % tuple(numbers)
        segsize = '' if link.phase == 'Calling' else ', SEGSIZE %d' % link.segsize
        yield '  link     %s-%s %s%s' % (own, far, link.phase, segsize)
        yield INDENT + words
    if len(live) > len(shown):
        yield '           and %s' % counted(len(live) - len(shown), 'more live link')


def is_open(link):
    """Whether an answer is awaited or owed on a link."""
    return link.phase != 'RUN' or link.flow.given > link.flow.acknowledged or link.flow.received != link.flow.last


def packet_of(words):
    """The packet in a record of bytes, or None."""
    if words[0] == 'n' or words[-1] == '-':
        return None
    if words[0] == 'x':
        return read_packet(bytes.fromhex(words[-1]))
    unit = read_unit(words[-1])
    return read_packet(unit.packet) if unit.kind == 'data' else None


def named_by(words):
    """The own and the far address of the link that a record names, as its side has them."""
    if words[0] == 'u':
        if words[1] in ('accept', 'reject'):
            return int(words[3]), int(words[2])
        return (int(words[2]) if len(words) > 2 else None), None
    packet = packet_of(words)
    message = read_nsp(packet.nsp) if packet and packet.nsp is not None and not packet.returned else None
    if message is None or message.kind == 'no operation':
        return None, None
    named = message.source, message.destination if message.kind != 'CI' else None
    return named if words[0] in ('s', 'x') else named[::-1]


# ---- together

def record_of(words):
    """The refused record, as the capture has it."""
    if words[0] == 'u':
        return {'what': 'record', 'kind': 'u', 'words': ' '.join(words[1:])}
    hint = {'hint': int(words[1])} if words[0] in RECEIPTS else {}
    return {'what': 'record', 'kind': words[0], **hint, 'bytes': words[-1]}


def queued_line(printed):
    """The line on what `check --queued` prints."""
    if printed.startswith(('accepted', 'passed')):
        return {'what': 'queued', 'answer': printed.split()[0]}
    _, side, record, _, line, number, name, *by = printed.split()
    accuses = {'accuses': 'other end'} if by else {}
    return {'what': 'queued', 'answer': 'refused', 'side': side, 'record': int(record), 'line': int(line.rstrip(':')),
            'number': int(number), 'name': name, **accuses}


def known_lines(refused, records, queued, others, is_pair=True):
    """What is known of the state of the line and, where that is asked, of nodes with queues; and the refused line says who is accused by that.
    `records` are those of its side, up to the refused one, and `others` which node it names besides the two and what both say that they are."""
    lines, number = [queued] if queued else [], refused['number']
    if queued:
        refused['accuses'] = excused(refused['accuses'], refused, queued)
    is_excused = is_pair and queued and queued['answer'] == 'accepted'
    excuses = [('begins_running', begins_running(number, records[:-1])),
               ('dc_waited', number == 18 and not is_excused and dc_waited(records[:-1], records[-1]))]
    for excuse in [what for what, is_so in excuses if is_so][:1]:
        refused['accuses'] = 'nobody'
        lines.insert(0, {'what': excuse, 'side': refused['side']})
    node, kinds = others
    if node:
        refused['accuses'] = 'nobody'
        lines.insert(0, {'what': 'other_node', 'side': refused['side'], 'node': node, 'init_a': kinds.get('a'), 'init_b': kinds.get('b')})
    return lines


def said(a, b):
    """What is said of the pair, or None."""
    _, made, refusal = run_to(a, b, len(a) + len(b))
    if refusal is None:
        return None
    sides, _, _ = run_to(a, b, made)
    letter, number = refusal
    side, place = sides[letter], sides[letter].next
    words = side.records[place]
    lines = [{
        'what': 'refused', 'side': 'ab'[letter], 'record': place, 'line': place + 2, 'number': number, 'name': NAMES[number - 1],
        'accuses': accused(number, words[0]),
    }, record_of(words)]
    rows = []
    for other in (letter, 1 - letter):
        lines.append(state_of(other, sides[other]))
        lines += [link_of(other, link) for link in sides[other].links.links if link.phase != 'Ended']
        rows += side_rows(other, sides[other], named_by(words)[::1 if other == letter else -1])
    queued = queued_line(judged(RULES, a, b, queued=True)) if number in BY_QUEUES else None
    others = other_node(number, words, (side.own, side.peer), True), inits([each.records[:each.next] for each in sides])
    lines += known_lines(lines[0], side.records[:place + 1], queued, others)
    lines += lines_of_pair((a, b), number)
    behind = sum(len(each.records) - each.next for each in sides) - 1
    return Said(lines, rows, behind, check_of(number, side, sides[1 - letter], 'ba'[letter], words))


def lines_with_queues(a, b):
    """The lines of the refusal and of both sides with their links, of nodes with queues; or None."""
    _, made, refusal = run_to(a, b, len(a) + len(b), queued=True)
    if refusal is None:
        return None
    sides, _, _ = run_to(a, b, made, queued=True)
    letter, number = refusal
    place = sides[letter].next
    words = sides[letter].records[place]
    lines = [{
        'what': 'refused', 'side': 'ab'[letter], 'record': place, 'line': place + 2, 'number': number, 'name': NAMES[number - 1],
        'accuses': accused(number, words[0]),
    }, record_of(words)]
    for other in (letter, 1 - letter):
        lines.append(state_of(other, sides[other]))
        lines += [queued_link_of(other, link) for link in sides[other].links.links if not link.is_dead()]
    others = other_node(number, words, (sides[letter].own, sides[letter].peer), True), inits([each.records[:each.next] for each in sides])
    return lines + known_lines(lines[0], sides[letter].records[:place + 1], None, others)


# ---- one end alone

def alone_to(text, line, most):
    """The end after at most so many records, and what refuses the next one, or None."""
    side = (StationAlone if line else Alone)(FREE, text)
    while side.next < most and not side.has_ended():
        try:
            side.make(None)
        except Refused as refusal:
            return side, refusal
    return side, None


def said_alone(text, line):
    """What is said of the capture of one end, or None. Which start of the other side goes with its own is not known."""
    side, refusal = alone_to(text, line, text.count('\n'))
    if refusal is None:
        return None
    side, _ = alone_to(text, line, side.next)
    side.station.partner = None
    place, number = side.next, refusal.reason
    words = side.records[place]
    accuses = 'other end' if isinstance(refusal, ByOther) else accused(number, words[0])
    lines = [{
        'what': 'refused', 'side': 'a', 'record': place, 'line': place + 2, 'number': number, 'name': NAMES[number - 1], 'accuses': accuses,
    }, record_of(words), state_of(0, side)]
    lines += [link_of(0, link) for link in side.links.links if link.phase != 'Ended']
    queued = queued_line(judged_alone(text, queued=True)) if number in BY_QUEUES and not line else None
    others = other_node(number, words, (side.own, side.peer), False), inits([side.records[:place]])
    lines += known_lines(lines[0], side.records[:place + 1], queued, others, is_pair=False) + lines_of_end(text, number, line=line)
    allowed = allowed_there(number, side, text.split()[2:4], named_by(words)) if accuses == 'other end' else None
    return Said(lines, list(side_rows(0, side, named_by(words))), None, allowed)


def allowed_there(number, side, head, named):
    """What the other end could have sent in the place of what came, where that is told by numbers."""
    if number == 8:
        return 'RESP ' + span(side.station.acknowledged % 256, side.station.given % 256)
    if number == 16:
        return '%s to %s: from the peer in the head to the node in the head' % tuple(head[::-1])
    if number == 21:
        flow = next(link.flow for link in side.links.links if link.phase != 'Ended' and link.own == named[0])
        first, last = flow.acknowledged % 4096, flow.given % 4096
        older = '; or an older one again' if first else ''
        return 'acks or naks %s: the highest acknowledged on this link, and the highest sent%s' % (span(first, last), older)
    return None


def span(first, last):
    return '%d to %d' % (first, last) if first != last else str(first)
