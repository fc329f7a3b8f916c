"""Which message of a link no correct node sends, whatever it received, for `tools/tests/test_tap`: each kind of message is tried after what makes it a
link by docs/LINKS.md, and after what does not. Side a called from its links 1 and 4; the message goes from its link 1 to link 2 of side b."""
from tests.tap_texts import UP, data_of, packet_of, text_of
from tests.tap_words import AT_FAULT, at_fault

CALLS = ('18000001000102f401', '18000004000102f401')

# what side b sent before it, one message after another
OF_B = {
    'nothing': None,
    'a CI of 2': '18000002000102f401',
    'a CI of 2 again': '68000002000102f401',
    'a CI of 3': '18000003000102f401',
    'a CC of 2 to 1': '28010002000102f40100',
    'a CC of 3 to 1': '28010003000102f40100',
    'a CC of 2 to 4': '28040002000102f40100',
    'a segment of 2 to 1': '6001000200010061',
    'a DI of 2 to 1': '3801000200000000',
    'a CI of 2 and a segment of 2 to 1': '18000002000102f401 6001000200010061',
}

# each message, and after which of these there may be such a link
RUN_BY_CALL = 'a CI of 2 and a segment of 2 to 1'
CALLED = ('a CI of 2', 'a CI of 2 again', RUN_BY_CALL)
JOINED = (*CALLED, 'a CC of 2 to 1')
RUNNING = ('a CC of 2 to 1', RUN_BY_CALL)
ANYTHING = tuple(OF_B)
MESSAGES = (
    ('a CC', '28020001000102f40100', CALLED),
    ('a connect acknowledgement', '240200', CALLED),
    ('a DI', '3802000100000000', JOINED),
    ('a segment', '6002000100010061', RUNNING),
    ('a data acknowledgement', '04020001000080', RUNNING),
    ('a link service message', '100200010001000000', RUNNING),
    ('an interrupt message', '3002000100010061', RUNNING),
    ('an acknowledgement of interrupts', '14020001000080', RUNNING),
    ('a DC', '48020001002900', ANYTHING),
    ('a CI', '18000005000102f401', ANYTHING),
)


def after(of_b, message):
    """The units, the last of which has this message."""
    calls = [('a', data_of(number, 0, packet_of('a', call))) for number, call in enumerate(CALLS, 1)]
    sent = of_b.split() if of_b else []
    answers = [('b', data_of(number, len(calls), packet_of('b', message))) for number, message in enumerate(sent, 1)]
    return UP + calls + answers + [('a', data_of(len(calls) + 1, len(answers), packet_of('a', message)))]


def faults_of_links(tap):
    """For each message after each of these how it is accused and should not be, or is not, or None."""
    for what, message, linked in MESSAGES:
        for before, of_b in OF_B.items():
            units = after(of_b, message)
            accused = at_fault('a', 4, len(units) + 1)
            printed = tap.tap(text_of(units))
            of_a = [side for side, *_ in AT_FAULT.findall(printed[0]) if side == 'a']
            is_right = (accused in printed[0]) == (before not in linked) == len(of_a)
            yield None if is_right else '%s after %s: printed %r' % (what, before, printed)
