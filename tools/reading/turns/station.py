"""Which turns the rules of the station have, row by row, for tools/tests/test_pairs: `station_rows` gives the headings of their list, each with its
turns. Those of the links are in tools/reading/turns/links.py. tools/tests/test_turns sees that the pairs tell them from the rules."""


def words_of(text):
    """The words of a list, which commas part."""
    return text.split(', ') if text else []


# ---- the station: the checks and effects of each row, and those that it lacks and its neighbour has. A neighbour is a row of the same state
# or of the same message. Each word of a rule is one turn of it.

STATES = ['HALTED', 'ISTRT', 'ASTRT', 'RUNNING']

# what the user does
EVENTS = ['start', 'halt']

# What a station may send. NAKs of reasons that want a cause are one row, those of the others are another.
SENT = ['STRT', 'STACK', 'ACK', 'NAK 1 2 3 8', 'NAK 9 16 17', 'REP', 'data']

# What may come. In ASTRT the ACK and the data message are those with RESP 0.
COMING = ['STRT', 'STACK', 'ACK', 'NAK', 'REP', 'data', 'bad header', 'bad data']

# what may come in ASTRT besides
RESP_NOT_0 = ['ACK, RESP not 0', 'data, RESP not 0']

# what a start sets anew
OF_START = (
    'keeps the period, keeps the partner, keeps R, keeps A, keeps T, keeps the packets, keeps the causes, keeps the causes behind a STRT, '
    'keeps the packets for repeats')

# Every turn that some row has, in groups. `row` turns whether the row is allowed, `kept` lets a receipt say that it kept a packet where none is
# taken, `needs` puts another need in the place of the row's.
RULES = [
    'row, kept, needs Anything, needs Fresh, needs OfPair',
    'without GoTo HALTED, without GoTo ASTRT, without GoTo RUNNING, without TakePartner, without Respond, without SetBack',
    'without TakePacket, without AnswerRep, without OpenCause 1, without OpenCause 2',
    'with GoTo HALTED, with GoTo ASTRT, with GoTo RUNNING, with TakePartner, with Respond, with SetBack',
    'with TakePacket, with AnswerRep, with OpenCause 1, with OpenCause 2',
    'Respond if next, Respond leaves T, Respond sets T, SetBack if RESP moved, AnswerRep for any',
    'TakePacket opens cause 8 for any, TakePacket opens no cause 8, TakePacket leaves R, TakePacket raises R unkept',
    'without RespIsLast, without SomeOutstanding, without NumIsHighest, without NumIsNext, without RoomIfNew, without AsFirstGiven',
    'SendPacket gives no number, SendPacket leaves T, SendPacket leaves T if sent again, with SendPacket',
    'NumIsHighest is T - 1, repeated with its first RESP, RespIsLast of new packets alone, a new packet in a repetition',
    OF_START,
]

# what a RESP moves, in parts, of all messages that have one
OF_RESPONSES = 'Respond only below T, Respond only at N, Respond ends a repetition, Respond above R alone'
RULES += [OF_RESPONSES, 'Respond if kept, Respond as at the first sending']

# whether each reason sets back
OF_SETTING_BACK = ', '.join('no SetBack by reason %d' % reason for reason in (1, 2, 3, 8, 9, 16, 17))
RULES += [OF_SETTING_BACK]

# the turns of the rules on causes, of each reason
OF_REASONS = [
    'without CauseIsOpen 1, without CauseIsOpen 2, without CauseIsOpen 3, without CauseIsOpen 8',
    'without UseCause 1, without UseCause 2, without UseCause 3, without UseCause 8',
    'with CauseIsOpen 9, with CauseIsOpen 16, with CauseIsOpen 17, with UseCause 9, with UseCause 16, with UseCause 17',
]

# what comes of a receipt before the station sees it, and of bytes that are sent
OF_LINE = [
    'sent a bad header, sent bad data, sent malformed, the last hint again, an earlier hint, never sent, not sent yet by either',
    'received another message, received malformed, received a bad header, received bad data',
    'noise leaves the front, noise that reads as sound, noise that reads as malformed, noise in HALTED, noise in a start, '
    'noise with a bad header, noise with bad data',
    'a bad header leaves the front, bad data leave the front, data that are not kept leave the front, an ACK leaves the front, '
    'a receipt in HALTED leaves the front',
]

# how causes are counted, over all rows
OF_CAUSES = [
    'one open cause of reason %d at most, a NAK answers all causes of reason %d' % (reason, reason) for reason in (1, 2, 3, 8)
] + [
    'a NAK answers causes of any reason, a cause of another reason will do, an ACK answers all causes, a REP answers all causes, '
    'data answer all causes',
]

# QSYNC and SELECT, which are not judged: a turn judges them in this unit, as it is sent or as it comes
OF_FLAGS = ['%s is sent, %s comes' % (kind, kind) for kind in ('STRT', 'STACK', 'ACK', 'NAK', 'REP', 'data')] + ['data is sent again']

# of the rows of RUNNING: each check and each effect left out, and those of a neighbour added
OF_SENDING_RUNNING = {
    'ACK': 'without RespIsLast, with SendPacket',
    'NAK 1 2 3 8':
        'without RespIsLast, without CauseIsOpen 1, without CauseIsOpen 2, without CauseIsOpen 3, without CauseIsOpen 8, '
        'without UseCause 1, without UseCause 2, without UseCause 3, without UseCause 8, with SendPacket',
    'NAK 9 16 17':
        'without RespIsLast, with CauseIsOpen 9, with CauseIsOpen 16, with CauseIsOpen 17, with UseCause 9, with UseCause 16, '
        'with UseCause 17, with SendPacket',
    'REP': 'without SomeOutstanding, without NumIsHighest, with SendPacket, NumIsHighest is T - 1',
    'data':
        'without NumIsNext, without RespIsLast, without RoomIfNew, without AsFirstGiven, SendPacket gives no number, SendPacket leaves T, '
        'SendPacket leaves T if sent again, repeated with its first RESP, RespIsLast of new packets alone, a new packet in a repetition',
}

# The rows of what an arrival does: what the message has to be, and the effects in order. Other rows have no effect, and need Anything, or nothing
# where what comes is damaged.
ARRIVALS = {
    ('ISTRT', 'STRT'): ('Anything', 'GoTo ASTRT, TakePartner'),
    ('ISTRT', 'STACK'): ('Fresh', 'GoTo RUNNING, TakePartner'),
    ('ASTRT', 'STRT'): ('Anything', 'TakePartner'),
    ('ASTRT', 'STACK'): ('Fresh', 'GoTo RUNNING, TakePartner'),
    ('ASTRT', 'ACK'): ('OfPair', 'GoTo RUNNING'),
    ('ASTRT', 'data'): ('OfPair', 'GoTo RUNNING, Respond, TakePacket'),
    ('RUNNING', 'STRT'): ('Anything', 'GoTo HALTED'),
    ('RUNNING', 'STACK'): ('OfPair', ''),
    ('RUNNING', 'ACK'): ('OfPair', 'Respond'),
    ('RUNNING', 'NAK'): ('OfPair', 'Respond, SetBack'),
    ('RUNNING', 'REP'): ('OfPair', 'AnswerRep'),
    ('RUNNING', 'data'): ('OfPair', 'Respond, TakePacket'),
    ('RUNNING', 'bad header'): ('nothing', 'OpenCause 1'),
    ('RUNNING', 'bad data'): ('nothing', 'OpenCause 2'),
}

# turns of a part of an effect
PARTS_OF_EFFECTS = {
    ('RUNNING', 'ACK'): 'Respond leaves T, Respond sets T, ' + OF_RESPONSES,
    ('RUNNING', 'NAK'): 'Respond leaves T, Respond sets T, SetBack if RESP moved, ' + OF_RESPONSES + ', ' + OF_SETTING_BACK,
    ('RUNNING', 'REP'): 'AnswerRep for any',
    ('RUNNING', 'data'):
        'Respond if next, Respond leaves T, Respond sets T, TakePacket opens cause 8 for any, TakePacket opens no cause 8, '
        'TakePacket leaves R, TakePacket raises R unkept, Respond if kept, Respond as at the first sending, ' + OF_RESPONSES,
    ('ASTRT', 'data'): 'TakePacket opens cause 8 for any, TakePacket opens no cause 8, TakePacket leaves R, TakePacket raises R unkept',
}

# What has what the effect is about: a RESP, a packet, a NUM, a sender's period, or damage. Other effects are about nothing that comes.
BEARERS = {
    'Respond': 'ACK, NAK, data',
    'TakePacket': 'data',
    'AnswerRep': 'REP, data',
    'TakePartner': 'STRT, STACK, ACK, NAK, REP, data',
    'OpenCause 1': 'bad header, bad data',
    'OpenCause 2': 'bad header, bad data',
}


def is_of_user(state, event, rule):
    """Whether a rule has a turn of this name for what the user does."""
    return rule == 'row' or (state, event) == ('HALTED', 'start') and rule in words_of(OF_START)


def is_of_sending(state, message, rule):
    """Whether a row of what may be sent has a turn of this name."""
    return rule == 'row' or state == 'RUNNING' and rule in words_of(OF_SENDING_RUNNING.get(message, ''))


def arrival(state, message):
    """What the row needs, and its effects."""
    other = ('nothing' if message in ('bad header', 'bad data') else 'Anything', '')
    need, effects = ARRIVALS.get((state, message), other)
    return need, words_of(effects)


def is_of_coming(state, message, rule):
    """Whether a row of what an arrival does has a turn of this name."""
    need, effects = arrival(state, message)
    word, _, rest = rule.partition(' ')
    if rule == 'kept':
        return True
    if word == 'needs':
        return need not in ('nothing', rest)
    if word == 'without':
        return rest in effects
    if word == 'with':
        return rest not in effects and is_lacked(state, message, rest)
    return rule in words_of(PARTS_OF_EFFECTS.get((state, message), ''))


def is_lacked(state, message, effect):
    """Whether a row could have this effect, and a neighbour has it. Going to the state that it is in is no effect."""
    kind = message.removesuffix(', RESP not 0')
    if effect == 'GoTo ' + state or effect in BEARERS and kind not in words_of(BEARERS[effect]):
        return False
    neighbours = [(other, kind) for other in STATES] + [(state, other) for other in COMING]
    return any(effect in arrival(*neighbour)[1] for neighbour in neighbours)


def station_rows():
    """The rows of the station, by the headings of its list, each with the turns that it has."""
    rules = [rule for group in RULES + OF_REASONS for rule in words_of(group)]
    rows = {}
    for state in STATES:
        for event in EVENTS:
            rows['%s user %s' % (state, event)] = [rule for rule in rules if is_of_user(state, event, rule)]
        for message in SENT:
            rows['%s sends %s' % (state, message)] = [rule for rule in rules if is_of_sending(state, message, rule)]
        for message in COMING + (RESP_NOT_0 if state == 'ASTRT' else []):
            rows['%s gets %s' % (state, message)] = [rule for rule in rules if is_of_coming(state, message, rule)]
    for heading, groups in ('the line', OF_LINE), ('causes', OF_CAUSES), ('flags', OF_FLAGS):
        rows[heading] = [rule for group in groups for rule in words_of(group)]
    return rows
