"""Which turns the rules of capture format 3 have, row by row, for tools/tests/test_pairs: `near_rows` gives the headings of the list `near.txt`, each
with its turns. A row that another list has too has here the turns that a boot, a call that was given up or a loss above DDCMP show in another light.
tools/tests/test_turns sees that the pairs tell them from the rules."""
from reading.turns.station import words_of

# what a start sets anew, and a boot leaves as it is
OF_NUMBERS = ', with anew R, with anew N, with anew A'

TURNS = {
    'HALTED user boot': 'row',
    'ISTRT user boot': 'row, without GoTo HALTED',
    'ASTRT user boot': 'row, without GoTo HALTED',
    'RUNNING user boot': 'row, without GoTo HALTED' + OF_NUMBERS,
    'boot':
        'keeps the links, closes the links, not in Calling, not in Called, not in Confirming, not in RUN, not in DI, '
        'keeps the addresses of links that it ends, keeps the addresses of links that were over, numbers links anew, loses what is under way',
    'queued boot': 'an ending link goes on, what waits goes on, keeps the addresses',
    'user abort':
        'row, without AddressIsLive, without RightPhase, without GiveUp, GoTo DI, in Confirming too, in RUN too, in DI too, not in Calling, '
        'HasAddress in place of LiveAt, OpenedAt in place of LiveAt, CallingAt in place of LiveAt, forgets the address, takes its number back',
    'queued user abort':
        'row, nothing of it waits, stays its user\'s, forgets the address, LiveAt in place of UsedAt, StillAt in place of UsedAt, in RUN too',
    'lost above':
        'the links meet it, moves no number, finds no buffer, is not counted as kept, 2 is not asked, 3 is not asked, 5 is not asked, '
        '12 is not asked, 13 is not asked, 16 is asked, 25 is asked',
    'composed':
        'the links never see it, the station numbers it, is a unit of the line, only in RUNNING, 15 is not asked, 16 is not asked, '
        '17 is not asked, 18 is not asked, 19 is not asked, 20 is not asked, 21 is not asked, 22 is not asked, 23 is not asked, '
        'its words leave the last, ends no call',
    'carried events': 'only in RUNNING, of a live link alone, as a message of the user',
    'the layers':
        'a boot counts periods anew, a boot counts what came up anew, a boot counts records anew, links that are over are not counted, '
        'a STRT that comes ends the links',
    # what plain's rules say next to a boot
    'user up': 'without AddressWasGiven, not in Calling, without IsNextMessage',
    'gets CI': 'a repeat begins a link, none begins by 68',
    'gets CC': 'without ForThisLink, 26 where a live link has the far address',
    'gets DI': 'of the pair, without the one in Calling',
    'gets DC': 'of the pair, without the one in Calling',
    'gets segment': '25 where no link acts, LiveAt in place of ActedOn',
    'sends DC': 'LiveAt in place of TheLink, without NoLink',
}


def near_rows():
    """The rows of capture format 3, by the headings of their list, each with its turns."""
    return {heading: words_of(turns) for heading, turns in TURNS.items()}
