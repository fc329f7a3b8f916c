"""Which turns the rules of the links have, row by row, for tools/tests/test_pairs: `link_rows` gives the headings of their list, each with its turns.
Those of the station are in tools/reading/turns/station.py. tools/tests/test_turns sees that the pairs tell them from the rules."""
from reading.turns.station import words_of

# A row is what the user does, a look-up, what is sent, or what comes, as the pages on the links and `Table` and `LookUps` of
# `dna_links` list them; what segments and their acknowledgement words say has rows of its own. `without X`
# leaves a check or an effect out, `X before Y` makes two checks in the other order, `X in place of Y` is another look-up, `in X too` and
# `not in X` turn a phase, `GoTo X` leads to another phase.

# of the two answers to a call; "GoTo" stands for each phase but the row's
OF_ANSWERING = (
    'row, without CallIsThere, without AddressIsFree, AddressIsFree before CallIsThere, BegunBy in place of CalledBy, '
    'LiveTo in place of CalledBy, HasAddress in place of LiveAt, gives no address, the earlier link keeps the address, GoTo Called, '
    'GoTo RUN, GoTo Ended, the far address is in use')

# of each look-up
OF_LOOK_UPS = 'the last that passes'

# of all that is sent
OF_SENDING = 'row, any source, any destination, BetweenNodes last'

# of what is sent by a link
OF_TAGS = 'has no tag, the tag has no partner'

# of what is sent in RUN alone
OF_SENDING_IN_RUN = (
    'without LinkIsThere, without RightPhase, in Confirming too, in DI too, LiveAt in place of TheLink, LiveTo in place of TheLink, '
    'ActedOn in place of TheLink')

# of all that comes
OF_COMING = 'any source, any destination'

# of DI and DC that come
OF_ENDING = (
    'LiveAt in place of TheLink, LiveTo in place of TheLink, ActedOn in place of TheLink, OpenedAt in place of CallingAt, '
    'without the one in Calling, 18 where no link has the addresses, of the pair, ignored unless of the pair, without EndLink, GoTo DI, '
    'not in Called, not in Confirming, not in RUN, not in DI')

# of what is acted on in Confirming and RUN
OF_ACTING = (
    'LiveAt in place of ActedOn, LiveTo in place of ActedOn, TheLink in place of ActedOn, 25 where no link acts, of no link, '
    'without SenderIsPartner, without ForThisLink, not in Confirming, not in RUN, without GoTo RUN')

# what is sent in RUN alone, and acted on in Confirming and RUN
IN_RUN = ['segment', 'data ack', 'link service', 'interrupt', 'other-data ack']

# The rows, by the headings of the list, each with the turns that are its own.
OWN_TURNS = {
    'user open':
        'row, begins in Called, begins in DI, begins in Confirming, begins in RUN, gives no address, without BeginLink, '
        'without AddressIsFree, not opened here, HasAddress in place of LiveAt, the earlier link keeps the address',
    'user accept': 'GoTo DI',
    'user reject': 'GoTo Confirming',
    'user in':
        'without AddressIsLive, not in Calling, in DI too, not in Confirming, HasAddress in place of LiveAt, not in RUN, without HandIn, '
        'in front of the earlier',
    'user up':
        'without AddressWasGiven, not in Calling, without IsNextMessage, not in Confirming, not in DI, LiveAt in place of HasAddress, '
        'not in Ended, not in RUN, a beginning of the message, each piece is a message, delivered again, any whole message, over a gap, '
        'one message at most',
    'user close':
        'without AddressIsLive, in Calling too, in DI too, not in Confirming, GoTo Ended, without GoTo DI, HasAddress in place of LiveAt, '
        'not in RUN, drops what came whole',
    'look-up HasAddress': 'without own',
    'look-up LiveAt': 'without own, without live',
    'look-up TheLink': 'without far, without own, without live',
    'look-up LiveTo': 'without far, without live',
    'look-up OpenedAt': 'without own, without opened, without live',
    'look-up CallingAt': 'without own, without calling',
    'look-up CalledBy': 'without far, without called',
    'look-up BegunBy': 'without far, without live, without begun by a CI',
    'look-up ActedOn': 'without connected, without far, without own',
    'sends no operation': 'has the tag of a link',
    'sends CI':
        'without LinkIsThere, flag byte 68 refused, GoTo Confirming, GoTo RUN, only once, HasAddress in place of OpenedAt, '
        'LiveAt in place of OpenedAt, CallingAt in place of OpenedAt, in RUN too, without RightPhase, in DI too, 68 in RUN too, '
        'none behind a connect ack',
    'sends connect ack': 'without LinkIsThere, CalledBy in place of BegunBy, GoTo Confirming, LiveTo in place of BegunBy',
    'sends CC':
        'without LinkIsThere, LiveAt in place of TheLink, LiveTo in place of TheLink, ActedOn in place of TheLink, in DI too, '
        'without RightPhase, GoTo RUN, in RUN too',
    'sends DI':
        'without LinkIsThere, LiveAt in place of TheLink, LiveTo in place of TheLink, in Confirming too, without RightPhase, GoTo Ended, in RUN too',
    'sends DC':
        'LiveAt in place of TheLink, LiveTo in place of TheLink, ActedOn in place of TheLink, in DI too, without NoLink, EndCalled as DI, '
        'without EndCalled, any SRCADDR ends, BegunBy in place of CalledBy, LiveTo in place of CalledBy',
    'sends segment':
        'NextPiece before FitsSegsize, SEGSIZE and one more, without FitsSegsize, NextPiece before WordsAreRight, without WordsAreRight, '
        'OneOfTheLast before WordsAreRight, SEGSIZE less one, without NextPiece, a higher number is new, repeats a number below 1, '
        'without OneOfTheLast, NextPiece does not begin, NextPiece does not end, NextPiece ends too early, NextPiece is empty, '
        'NextPiece of any data, NextPiece of no empty message, numbers from 0, AsFirstGiven before WordsAreRight, NextPiece over two messages, '
        'gives no number, repeats nothing, repeated with another bit 5, repeated with another bit 6, without AsFirstGiven, '
        'repeated with other data, takes nothing from what was handed in, AsFirstGiven once acknowledged, repeats none that is acknowledged, '
        'the last one stays, FitsSegsize before RoomInWindow, NextPiece before RoomInWindow, RoomInWindow before WordsAreRight, '
        'RoomInWindow for repeats, a window of 2,046, repeats one of the last 2,046, a window of 2,048, without RoomInWindow, '
        'repeats any number given, repeats one of the last 2,048, numbers do not wrap, whether 2,047 were given is forgotten, '
        'repeated with a beginning of its data, repeated with its first words, SEGSIZE 0 is no limit, SEGSIZE 0 takes nothing',
    'sends data ack': 'without WordsAreRight, the last one stays',
    'sends link service': 'its words are judged',
    'sends interrupt': 'its words are judged',
    'sends other-data ack': 'its words are judged',
    'words that are sent':
        'NAK not judged, a repeat goes below 0, one above the highest, without the upper limit, qualifier 2 judged, qualifier 3 judged, '
        'second word not judged, a data ack goes back, second word judged from the last message, the last one stays, without the lower limit, '
        'a new segment goes back, a repeat does not go back, highest refused, second word refused, the last one again refused, '
        'NAK leaves the last, qualifier 2 moves the last, qualifier 3 moves the last, a repeat leaves the last, '
        'a repeat that goes back moves the last, a repeat goes 2,046 back, a repeat goes 2,048 back, a repeat goes back without limit, '
        'numbers do not wrap, whether the last reached 2,047 is forgotten, '
        'NAK goes back, through the highest given, a word that is sent acknowledges, a repeat goes 2,048 back across 4,096, '
        'a repeat goes back without limit across 4,096',
    'gets no operation': 'of the pair',
    'gets CI':
        'begins in Calling, begins in Confirming, begins in RUN, without BeginLink, without the far address, opened here, '
        'a repeat by 68 refused, a repeat leads to Confirming, a repeat leads to Ended, a repeat leads to RUN, without the partner, '
        'CalledBy in place of LiveTo, a repeat begins a link, a repeat leads to Called, a repeat is of the pair, none begins by 68, '
        'without SEGSIZE, a repeat gives SEGSIZE, a repeat gives the partner, '
        'a second call is ignored, ignored at an own address, BegunBy in place of LiveTo',
    'gets connect ack': 'GoTo Ended, GoTo RUN',
    'gets CC':
        'GoTo Confirming, GoTo Ended, row, without GoTo RUN, without SEGSIZE, without the far address, 25 where no link is Calling, '
        'without the partner, without ForThisLink, LiveAt in place of CallingAt, OpenedAt in place of CallingAt, of no link, '
        'HasAddress in place of CallingAt, 25 where the link is over, a repeat gives a greater SEGSIZE, a repeat gives a smaller SEGSIZE',
    'gets DI': 'ends the call from SRCADDR',
    'gets DC': 'in Calling from SRCADDR 0 alone, ends the call from SRCADDR',
    'gets segment':
        'without TakeSegment, without TakeWords, TakeWords of no segment over a gap',
    'gets data ack': 'without TakeWords',
    'gets link service': 'its words acknowledge',
    'gets interrupt': 'its words acknowledge',
    'gets other-data ack': 'its words acknowledge',
    'words that come':
        'ACK acknowledges nothing, acknowledge nothing, only the first, the highest given does not count, through the number before, '
        'NAK acknowledges nothing, qualifier 2 acknowledges, qualifier 3 acknowledges, one number at most, only the second, take back, '
        'numbers do not wrap, one above the highest given counts, '
        'through the highest received, a word that comes moves the last, NAK acknowledges through the number before',
    'segment that comes':
        'held but the highest stays, passed over, an end drops what came whole, again in place of the first, over a gap it counts, '
        'passed over a gap, the highest rises by one, held 2,046 ahead, numbers do not wrap, held 2,048 ahead, ends by the next bit 5, '
        'an end keeps what did not come whole',
    'the layers':
        '15 before the station, 17 before the station, an event of a link only in RUNNING, links are not counted, '
        'the links before the station, a halt ends the links, a control packet cannot be read, a message that cannot be read is carried, '
        'a packet that cannot be read is carried, a returned packet is read, the message of a returned packet is read, '
        'the links never see a sending, a start drops the links, b has the addresses of the other head, the links never see a kept packet, '
        'the links before the station at a receipt, the links see a packet without a buffer, the links see a packet out of order, '
        'a packet sent again has no tag, the links meet each sending, what came up is not counted, the tag of the last sending, '
        'the links see a kept packet twice, '
        'links that are over are not counted, a packet sent again has the tag of the newest, a start drops what was handed in, '
        'a start drops the segments given, a start drops what came whole, a start drops what is held over a gap, a start drops the last word',
}

# what messages and packets carry and nobody judges: a turn judges it, where it is sent or where it comes
NOT_JUDGED = [
    '%s of a %s that is sent, %s of a %s that comes' % (name, kind, name, kind)
    for kind, names in (('CI', 'SERVICES INFO user_data'), ('CC', 'SERVICES INFO user_data'), ('DI', 'REASON user_data'), ('DC', 'REASON'))
    for name in [name.replace('_', ' ') for name in names.split()]
] + [
    'bit 12 is refused, bit 12 counts, bit 12 goes on where it is sent, bit 12 goes on where it comes, bit 12 of a repeat as at first',
    'one interrupt at a time, equal addresses in a head, heads that do not pair',
] + [
    '%s refused, %s not read, %s not read where it comes' % (name, name, name)
    for name in ('FORWARD', 'RTFLG 0a', 'RTFLG 22', 'RTFLG 42', 'RTFLG 6a')
] + [
    'a returned packet is read where it comes, a returned packet is refused where it cannot be read',
    'the nodes of a returned packet that is sent, the nodes of a returned packet that comes',
]
OWN_TURNS['not judged'] = ', '.join(NOT_JUDGED)


def shared_turns(heading):
    """The turns that a row shares with others, in groups."""
    verb, _, name = heading.partition(' ')
    if heading in ('user accept', 'user reject'):
        return [OF_ANSWERING]
    if verb == 'look-up':
        return [OF_LOOK_UPS]
    if verb == 'sends':
        return [OF_SENDING] + [OF_TAGS] * (name != 'no operation') + [OF_SENDING_IN_RUN] * (name in IN_RUN)
    if verb == 'gets':
        return [OF_COMING] + [OF_ENDING] * (name in ('DI', 'DC')) + [OF_ACTING] * (name in IN_RUN)
    return []


def link_rows():
    """The rows of the links, by the headings of their list, each with the turns that it has."""
    return {heading: [turn for group in [own] + shared_turns(heading) for turn in words_of(group)] for heading, own in OWN_TURNS.items()}
