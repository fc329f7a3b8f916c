"""Which turns the rules of links with queues have, row by row: `queue_rows` gives the headings of their list, each with its turns. Those of other
links are in tools/reading/turns/links.py, which says what the words of a turn mean. tools/tests/test_turns sees that the pairs tell them from the
rules."""
from reading.turns.station import words_of

# of what gives an address
OF_GIVING = 'what waits of the earlier link, the earlier link keeps the address, StillAt in place of LiveAt, without AddressIsFree'

# of what is sent by a link in RUN
OF_SENDING_IN_RUN = (
    'row, without LinkIsThere, without HasRun, without SaidAtMost, not in DI, said at most 2, said at most 0, with Say 2, '
    'TheLink in place of StillTheLink, StillAt in place of StillTheLink, without Say 1')

# of DI and DC that come
OF_ENDING = 'without EndLink, EndLink as dead, ActedOn in place of TheLink, without the one in Calling'

# of what is acted on in Confirming and RUN
OF_ACTING = 'TheLink in place of ActedOn, StillTheLink in place of ActedOn, without GoTo RUN'

IN_RUN = ['segment', 'data ack', 'link service', 'interrupt', 'other-data ack']

# The rows, by the headings of the list, each with its turns.
TURNS = {
    'queued link':
        'it ran once it was accepted, a close forgets RUN, a close forgets what was accepted, a close drops what was handed in, its end forgets RUN, '
        'its end drops what was handed in, its end drops what was given',
    'queued user open': OF_GIVING,
    'queued user accept': OF_GIVING + ', without Accept',
    'queued user reject': OF_GIVING + ', with Accept',
    'queued user in': 'LiveAt in place of UsedAt, HasAddress in place of UsedAt, StillAt in place of UsedAt, in DI too, not in Calling',
    'queued user close':
        'LiveAt in place of UsedAt, HasAddress in place of UsedAt, StillAt in place of UsedAt, in DI too, in Calling too',
    'queued look-up LiveAt': 'without live',
    'queued look-up TheLink': 'without live',
    'queued look-up LiveTo': 'without live',
    'queued look-up CallingAt': 'without live',
    'queued look-up CalledBy': 'without live',
    'queued look-up ActedOn': 'without live',
    'queued look-up UsedAt': 'without not dead, without not given up',
    'queued look-up StillAt': 'without not dead',
    'queued look-up StillOpenedAt': 'without not dead, without opened',
    'queued look-up StillTheLink': 'without not dead, without far',
    'queued look-up StillBegunBy': 'without not dead, without far, without begun by a CI',
    'queued sends CI':
        'row, without LinkIsThere, without SaidAtMost, said at most 1, not in RUN, not in DI, with Say 1, OpenedAt in place of StillOpenedAt, '
        'StillAt in place of StillOpenedAt',
    'queued sends connect ack': 'row, without LinkIsThere, BegunBy in place of StillBegunBy',
    'queued sends CC':
        'row, without LinkIsThere, without IsAccepted, without SaidAtMost, said at most 1, not in RUN, not in DI, with Say 1, '
        'TheLink in place of StillTheLink, StillAt in place of StillTheLink',
    'queued sends DI':
        'row, without LinkIsThere, without RightPhase, in RUN too, in Confirming too, without Say 2, TheLink in place of StillTheLink, '
        'StillAt in place of StillTheLink',
    'queued sends DC':
        'row, without NoLink, StillTheLink in place of TheLink, without EndWaiting, without EndCalled, an ending link goes on, a live link is dead, '
        'of that far address alone, nothing is said in RUN, nothing is said in DI, only RUN is said in DI, RUN is said in Calling, '
        'RUN is said in Confirming',
    **{'queued sends ' + name: OF_SENDING_IN_RUN for name in IN_RUN},
    'queued gets CI': 'StillBegunBy in place of LiveTo',
    'queued gets CC': 'StillOpenedAt in place of CallingAt, without GoTo RUN',
    'queued gets DI': OF_ENDING,
    'queued gets DC': OF_ENDING,
    **{'queued gets ' + name: OF_ACTING for name in IN_RUN},
    'queued words of a new segment':
        'does not go back, 2,046 back, 2,048 back, back without limit, below an earlier new segment, not again the number that was named, '
        'a NAK names nothing, an older number is not named, a number that rises is not named, an older number is the last one, '
        'a data ack goes back too, a data ack names a number, a repeat names a number, a data ack moves what was named, '
        'a repeat moves what was named, a start forgets what was named',
}


def queue_rows():
    """The rows of links with queues, by the headings of their list, each with its turns."""
    return {heading: words_of(turns) for heading, turns in TURNS.items()}
