"""Which turns the rules of the player have, by heading, for the rows of tools/lists/rows.txt and for tools/tests/test_play_turns: each is one rule
read otherwise, as somebody might who makes a player. The files `.turns` beside it ask for them by these names."""


def each(text, words):
    """The turns of this text, with each of the words in its place."""
    return [text % word for word in words.split(', ')]


# ---- the station

OF_STATES = {
    'the user starts and halts it':
        each('starts in %s too', 'ISTRT, ASTRT, RUNNING') + each('never halts in %s', 'HALTED, ISTRT, ASTRT, RUNNING') +
        ['a start owes nothing', 'a start keeps R', 'a start keeps A', 'a start keeps the packets', 'a halt drops no debt',
         'STRT and STACK stay owed', 'a start drops the links', 'a start drops what links owe', 'a start drops what is on the line to it'],
    'its timer':
        each('no timer in %s', 'ISTRT, ASTRT, RUNNING') +
        ['a timer in HALTED', 'a timer in ISTRT brings nothing', 'a timer in ASTRT brings STRT', 'a timer never asks', 'a timer always asks',
         'a timer asks only where all went', 'a timer that asks sets T back', 'a timer without packets brings nothing'],
    'what comes in HALTED':
        ['STRT in HALTED leads to ASTRT', 'data in HALTED are taken', 'REP in HALTED brings a NAK', 'damage in HALTED brings a NAK'],
    'what comes in ISTRT':
        each('%s in ISTRT is passed over', 'STRT, STACK') +
        ['STRT in ISTRT leads to RUNNING', 'STRT in ISTRT brings no STACK', 'STACK in ISTRT leads to ASTRT', 'STACK in ISTRT brings no ACK',
         'ACK in ISTRT leads to RUNNING', 'NAK in ISTRT leads to RUNNING', 'REP in ISTRT brings a NAK', 'data in ISTRT lead to RUNNING',
         'data in ISTRT are taken', 'damage in ISTRT brings a NAK'],
    'what comes in ASTRT':
        each('%s in ASTRT is passed over', 'STRT, STACK, ACK, data') + each('%s in ASTRT with any RESP', 'ACK, data') +
        ['STRT in ASTRT brings no STACK', 'STRT in ASTRT leads to HALTED', 'STACK in ASTRT brings no ACK', 'ACK in ASTRT brings an ACK',
         'data that end a start are not taken', 'NAK in ASTRT leads to RUNNING', 'REP in ASTRT brings a NAK', 'REP in ASTRT leads to RUNNING',
         'damage in ASTRT brings a NAK'],
    'what comes in RUNNING':
        each('%s in RUNNING is passed over', 'STRT, STACK, ACK, NAK, REP, data') +
        ['STRT in RUNNING leads to ASTRT', 'STRT in RUNNING leads to ISTRT', 'STRT in RUNNING changes nothing', 'STRT in RUNNING drops no debt',
         'STACK in RUNNING brings no ACK', 'STACK in RUNNING sets T back', 'ACK brings an ACK', 'ACK sets T back', 'a NAK sets nothing back',
         'only NAK 3 sets T back', 'a NAK brings an ACK', 'a NAK that comes drops REP'],
}

OF_NUMBERS = {
    'RESP that comes':
        each('RESP of %s changes nothing', 'ACK, NAK, data') +
        ['RESP counts only through what went', 'RESP acknowledges one packet at most', 'RESP of N does not count', 'numbers of RESP do not wrap',
         'T stays behind RESP', 'RESP sets T to A + 1', 'REP stays owed once all is acknowledged', 'RESP drops REP'],
    'data that come':
        ['numbers of data do not wrap', 'a packet that is ahead is taken', 'a packet out of order has a k line', 'data bring no ACK',
         'data out of order bring NAK 3', 'data out of order bring ACK', 'data again bring ACK', 'an unkept packet counts as received',
         'no buffer brings nothing', 'no buffer brings ACK', 'no buffer brings NAK 9', 'what is delivered is never kept',
         'what is refused is kept', 'links see what is not kept'],
    'a REP that comes':
        ['a REP always brings NAK 3', 'a REP always brings ACK', 'a REP of R brings nothing', 'a REP of another number brings nothing'],
    'damage':
        ['header bad brings nothing', 'data bad brings nothing', 'a bad header brings NAK 2', 'bad data bring NAK 1', 'damage sets T back'],
}

OF_SENDING = {
    'what goes before the line runs':
        each('%s need not be owed', 'STRT, STACK') + each('%s is not cleared', 'STRT, STACK') + each('no flags in %s', 'STRT, STACK') +
        each('data in %s', 'HALTED, ISTRT, ASTRT'),
    'the order of what goes':
        ['REP before NAK', 'data before REP', 'ACK before data', 'the highest NAK first', 'new packets before those again'],
    'what sending clears':
        ['a NAK clears all NAKs', 'a NAK is not cleared', 'a NAK clears no ACK', 'a NAK clears REP', 'REP is not cleared', 'REP clears ACK',
         'ACK is not cleared', 'data clear no ACK', 'data again clear no ACK'],
    'the numbers of what goes':
        each('RESP 0 in %s', 'a NAK, an ACK, data') +
        ['RESP is the number that it waits for', 'RESP wraps at 255', 'REP names the last that went', 'REP names the first outstanding',
         'NUM of REP wraps at 255', 'NUM of data wraps at 255', 'NUM of data again wraps at 255', 'packets are counted from 0'],
    'the window of packets':
        ['254 packets outstanding at most', '256 packets outstanding at most', 'packets that are acknowledged fill the window'],
}

# ---- the links

OF_USERS = {
    'links and their addresses':
        ['65,534 addresses', '65,536 addresses', 'full before bad step', 'addresses that are free again are given',
         'steps and messages name the far address', 'an ended link is found by its address'] +
        each('%s leads nowhere', 'Confirming, DI, RUN, Ended'),
    'a call is answered':
        ['a call is answered twice', 'any call is answered', 'an answer drops no connect ack', 'an answer gives the far address',
         'an acceptance brings nothing', 'a rejection brings nothing'],
    'a message is handed in':
        each('no message is handed in in %s', 'Calling, Confirming, RUN') +
        ['a message is handed in in DI', 'an empty message is none', 'what was handed in before RUN is dropped', 'the last message first'],
    'a link is closed':
        each('no close in %s', 'Confirming, RUN') + each('a close in %s', 'Calling, DI') +
        ['a close waits for what was handed in', 'a close drops no debt', 'a close brings nothing', 'a close ends the link'],
    'the timer of a link':
        each('no retry in %s', 'Calling, Confirming, RUN, DI') + each('a retry in %s brings nothing', 'Calling, Confirming, DI') +
        ['a retry in RUN repeats nothing', 'a retry repeats the first alone', 'a retry in RUN brings a data ack'],
}

OF_LINKS = {
    'the order of what links send':
        ['DCs last', 'the newest DC first', 'the link with the lowest address first', 'the newest link first', 'links take turns',
         'segments before data ack'],
    'what links send':
        each('%s is not cleared', 'connect ack, CI, CC, DI, data ack') +
        each('the addresses exchanged in %s', 'connect ack, CC, DI, data ack, a segment') +
        ['one DC for equal DIs', 'one DC at a time', 'DC with the addresses of the DI', 'CI is 68 from the first on', 'CI is always 18',
         'no user data in CC', 'no user data in DI', 'a data ack names the next', 'a data ack over gaps'],
    'segments that go':
        each('segments in %s', 'Calling, Confirming, DI') +
        ['the lowest number modulo 4,096 again first', 'the highest again first', 'new segments before those again',
         'no new segment while some are outstanding', 'SEGNUM wraps at 4,095', 'SEGNUM does not wrap to 0', '2,046 segments outstanding at most',
         '2,048 segments outstanding at most', 'segments that are acknowledged fill the window', 'no segment again in a full window',
         'a segment says what came', 'bit 12 where a message goes on'],
    'pieces':
        ['pieces of 511', 'pieces of 513', 'a whole piece never ends', 'pieces begin and end all', 'messages go on in one'],
    'calls and answers that come':
        ['each CI begins a link', 'a CI by 68 begins no link', 'a CI brings no connect ack', 'a CI again in Called brings nothing',
         'a CI again in Confirming brings nothing', 'a CI again in Confirming brings a connect ack', 'a CI again in DI brings DI',
         'a CC keeps the CI', 'a CC gives no far address', 'a CC brings no data ack', 'a CC again in RUN brings nothing',
         'a CC in DI brings a data ack', 'a CC in DI brings DI'],
    'DI and DC that come':
        each('a DI does not end one in %s', 'Calling, Confirming, RUN, DI') +
        ['every DI brings 42', 'every DI brings 41', 'a DI for no link brings nothing', 'a DC ends no link', 'a DC brings a DC',
         'the end drops no debt'],
    'messages of RUN that come':
        ['a message of RUN is acted on in DI', 'a message of RUN does not lead from Confirming', 'RUN keeps the CC',
         'a data ack brings a data ack', 'numbers of a data ack do not wrap', 'a data ack acknowledges one segment',
         'a data ack through its number less one', 'a data ack acknowledges nothing'],
    'segments that come':
        ['numbers of segments do not wrap', '2,046 segments ahead at most', 'only the next segment is held', 'a segment brings no data ack',
         'a segment again brings nothing', 'only what ends a message brings a data ack', 'segments again are delivered again',
         'the highest received wraps at 4,095', 'a segment over a gap is delivered', 'a message is its last piece', 'each segment is a message',
         'one segment at a time', 'one message at a time', 'no message is delivered'],
}

# ---- the line, and what is written

OF_LINE = {
    'the line':
        each('%s where nothing is on the line', 'deliver, refuse, lose, damage') +
        ['the newest unit comes first', 'lost units are not counted', 'a lost unit has a line', 'units are counted from 1', 'nothing can be sent',
         'no head without a record'],
    'a unit that is damaged':
        ['damage behind the last byte', 'no damage at the last byte', 'damage by 0', 'damage by 254 at most', 'damage by a word',
         'damage puts V in place of the byte'],
    'noise':
        ['no bytes are no noise', 'fewer than 8 bytes are no noise', 'data that are cut read as a bad header',
         'a bad header with SOH reads as bad data', 'short bytes that check are no noise', 'cut data that check are no noise',
         'data of no bytes are bad data', 'noise that is sound', 'noise that is malformed', 'noise is the next unit',
         'noise brings nothing'],
}

# ---- what only format 3 has lines for

OF_THREE = {
    'a node that starts anew':
        each('never boots in %s', 'HALTED, ISTRT, ASTRT, RUNNING') +
        ['a boot does not halt', 'a boot keeps the links', 'a boot keeps the calls that came', 'a boot keeps the DCs',
         'a boot gives no address again', 'a boot drops what is on the line to it', 'a boot counts units from 0', 'a boot has the line of a halt'],
    'a call that is given up':
        each('a call is given up in %s', 'Confirming, RUN, DI') +
        ['a call is given up once it is sent', 'a call that is given up goes to DI', 'a call that is given up brings a DI',
         'a call that is given up frees its address'],
    'a packet that is lost before the links':
        ['drop where nothing is on the line', 'a drop of what is not kept', 'what is dropped never came', 'what is dropped is not kept',
         'what is dropped has a k line', 'links see what is dropped'],
    'the format':
        each('%s leaves format 1', 'boot, abort, drop') + ['format 3 always'],
}

RULES = {**OF_STATES, **OF_NUMBERS, **OF_SENDING, **OF_USERS, **OF_LINKS, **OF_LINE, **OF_THREE}
