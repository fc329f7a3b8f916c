"""The rules of the stations as tables, as docs/PROTOCOL.md tells them: what the user does, what may be sent, and what an arrival does. A part of
tools/reading/judging.py, which judges pairs apart from the program."""
from reading.rows import Row

STATES = ['HALTED', 'ISTRT', 'ASTRT', 'RUNNING']
MESSAGES = ['STRT', 'STACK', 'ACK', 'NAK', 'REP', 'data']
CAUSED, FREE = (1, 2, 3, 8), (9, 16, 17)  # reasons of a NAK that need a cause, and those that need none

# what a start sets anew
ANEW = ['the period', 'the partner', 'R', 'N', 'A', 'T', 'the packets', 'the causes']
NUMBERS = {'R': 'received', 'N': 'given', 'A': 'acknowledged', 'T': 'next'}

USER = {
    'start': {'HALTED': ['anew ' + name for name in ANEW] + ['GoTo ISTRT']},
    'halt': {state: ['GoTo HALTED'] for state in STATES},
    'boot': {state: ['GoTo HALTED'] for state in STATES},
}

# what may be sent: the state, the checks in their order, and the effects
SENDING = {
    'STRT': ('ISTRT', [], []),
    'STACK': ('ASTRT', [], []),
    'ACK': ('RUNNING', ['RespIsLast'], []),
    'NAK 1 2 3 8':
        ('RUNNING', ['RespIsLast'] + ['CauseIsOpen %d' % reason for reason in CAUSED], ['UseCause %d' % reason for reason in CAUSED]),
    'NAK 9 16 17': ('RUNNING', ['RespIsLast'], []),
    'REP': ('RUNNING', ['SomeOutstanding', 'NumIsHighest'], []),
    'data': ('RUNNING', ['NumIsNext', 'RespIsLast', 'RoomIfNew', 'AsFirstGiven'], ['SendPacket']),
}

# what an arrival does: what it needs, and the effects in their order; all other rows need Anything, and have none
ARRIVING = {
    ('ISTRT', 'STRT'): ('Anything', ['TakePartner', 'GoTo ASTRT']),
    ('ISTRT', 'STACK'): ('Fresh', ['TakePartner', 'GoTo RUNNING']),
    ('ASTRT', 'STRT'): ('Anything', ['TakePartner']),
    ('ASTRT', 'STACK'): ('Fresh', ['TakePartner', 'GoTo RUNNING']),
    ('ASTRT', 'ACK'): ('OfPair', ['GoTo RUNNING']),
    ('ASTRT', 'data'): ('OfPair', ['GoTo RUNNING', 'Respond', 'TakePacket']),
    ('RUNNING', 'STRT'): ('Anything', ['GoTo HALTED']),
    ('RUNNING', 'STACK'): ('OfPair', []),
    ('RUNNING', 'ACK'): ('OfPair', ['Respond']),
    ('RUNNING', 'NAK'): ('OfPair', ['Respond', 'SetBack']),
    ('RUNNING', 'REP'): ('OfPair', ['AnswerRep']),
    ('RUNNING', 'data'): ('OfPair', ['Respond', 'TakePacket']),
    ('RUNNING', 'bad header'): ('Anything', ['OpenCause 1']),
    ('RUNNING', 'bad data'): ('Anything', ['OpenCause 2']),
}
OTHER_ARRIVALS = ['bad header', 'bad data', 'ACK, RESP not 0', 'data, RESP not 0']


def station_rules():
    """The rows of a station, by heading."""
    rules = []
    for state in STATES:
        for event, allowed in USER.items():
            rules.append(Row('%s user %s' % (state, event), allowed=state in allowed, effects=allowed.get(state, [])))
        for message, (allowed, checks, effects) in SENDING.items():
            rules.append(Row('%s sends %s' % (state, message), allowed=state == allowed, checks=checks, effects=effects))
        for message in MESSAGES + OTHER_ARRIVALS:
            need, effects = ARRIVING.get((state, message), ('Anything', []))
            rules.append(Row('%s gets %s' % (state, message), need=need, effects=effects, kept=False))
    return {row.heading: row for row in rules}
