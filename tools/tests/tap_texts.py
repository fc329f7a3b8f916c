"""Texts of what passed for `tools/tests/test_tap`: those of tools/lists/tap with what `ddcap tap` answers; texts that are made here;
and what passed in the pairs that scripts of examples/ and the rows of tools/lists/rows.txt play."""
import glob
import os

from captures import ack_of, changed, nak_of, with_check
from lists.rows import HEAD, rows_of
from tests.passed import wire_text
from tests.program import TOP, share, started
from tests.tap_words import APART, NOBODY, at_fault, discarded, fault_of_answer, unexplained

STRT, STACK, MAINTENANCE = '0506c00000017595', '0507c00000014855', '9002c00000019950080007c0'
UP = [('a', STRT), ('b', STACK), ('a', ack_of(0))]

# The answer to tools/lists/tap/NAME.wire, up to the premise.
ANSWERS = (
    ('lossless', 'accepted\na records 175 sent 87 received 87 damaged 0 kept 40 periods 1 links 0 up 0\n'
     'b records 170 sent 87 received 82 damaged 0 kept 40 periods 1 links 0 up 0\n'),
    ('skipped_number', unexplained('a', 7, 16, '7 WrongNumber', at_fault('a', 7, 16))),
    # the unit begins in the line that is named, and ends in the next one
    ('number_skipped_in_two_pieces', unexplained('a', 7, 16, '7 WrongNumber', at_fault('a', 7, 16))),
    # a link acknowledges a segment that never passed; a message of flag byte 02
    ('acknowledged_too_far', unexplained('a', 4, 9, '21 WrongAck', at_fault('a', 4, 9))),
    # a link sends segments 1, 2 and 4
    ('skipped_segment', unexplained('a', 4, 8, '20 WrongSegment', NOBODY, discarded('a', 4, 8))),
    # segment 1 goes again with another byte: as it can't be acknowledged, and as it may be
    ('changed_segment', unexplained('a', 3, 7, '20 WrongSegment', at_fault('a', 3, 7, 'other subchannel'))),
    ('changed_segment_acknowledged', 'accepted\n'),
    ('unread_message', unexplained('a', 1, 4, '17 BadNsp', at_fault('a', 1, 4))),
    # 255 packets are outstanding
    ('full_window', 'accepted\na records 259 sent 257 received 1 damaged 0 kept 0 periods 1 links 0 up 0\n'
     'b records 259 sent 2 received 256 damaged 0 kept 255 periods 1 links 0 up 0\n'),
    # a CI and its CC pass again, and are no other call
    ('call_and_confirm_twice', 'accepted\na records 9 sent 4 received 3 damaged 0 kept 2 periods 1 links 1 up 0\n'
     'b records 8 sent 3 received 3 damaged 0 kept 2 periods 1 links 1 up 0\n'),
    # a NAK came before the unit, which goes by it and has a wrong RESP besides
    ('wrong_response_behind_a_nak', unexplained('a', 4, 9, '8 WrongResponse', at_fault('a', 4, 9))),
    # a packet goes again with other bytes, and a response that is right only if what passed was kept: the packet is wrong, not the response
    ('changed_with_its_response', unexplained('b', 2, 8, '10 Changed', at_fault('b', 2, 8))),
    # a packet was refused for want of a buffer, was kept when the next unit brought it again, and the NAK of that goes after its ACK
    ('refused_buffer_told_late', 'accepted\n'),
    # a NAK of damaged data, of a data message and of an ACK
    ('nak2', 'accepted\n'),
    ('nak_of_data', 'accepted\n'),
    # no link has the address 0: the unit that names it is unexplained
    ('ci0', unexplained('a', 2, 5, '18 NoLink', at_fault('a', 2, 5))),
    ('ci_from_0_answered', unexplained('a', 2, 5, '18 NoLink', at_fault('a', 2, 5))),
    ('cc0', unexplained('b', 1, 6, '18 NoLink', at_fault('b', 1, 6))),
    ('di0', unexplained('b', 1, 6, '18 NoLink', at_fault('b', 1, 6))),
    # a DC to the address 0 ends no call
    ('dc_to_0', 'accepted\n'),
    # a NAK that names all packets was lost, since a REP follows
    ('lost_nak', 'accepted\n'),
    # a start is begun again while all was lost
    ('start_again_lost', 'accepted\n'),
    # two starts of a side, between which it sent nothing else
    ('two_starts', 'accepted\n'),
    # a CC is lost as its receiver starts anew, and the CI goes again
    ('cc_lost_at_restart', 'accepted\n'),
    # a DC was under way at a restart, and its link address calls again
    ('called_again_at_restart', 'accepted\n'),
    # the address of a link that lives is opened again after a restart; and a segment of it is answered by a DC
    ('opened_again_after_boot', 'accepted\na records 17 sent 7 received 4 damaged 0 kept 1 periods 2 links 2 up 0\n'
     'b records 16 sent 5 received 7 damaged 0 kept 3 periods 2 links 1 up 0\nthis assumes a boot before a unit 4 line 9\n'),
    ('no_link_after_boot', 'accepted\na records 22 sent 9 received 6 damaged 0 kept 3 periods 2 links 2 up 0\n'
     'b records 22 sent 7 received 9 damaged 0 kept 5 periods 2 links 2 up 0\nthis assumes a boot before a unit 4 line 9\n'),
    # both nodes boot, and each one's address is used again
    ('both_boot', 'accepted\na records 20 sent 8 received 5 damaged 0 kept 2 periods 2 links 3 up 0\n'
     'b records 19 sent 6 received 8 damaged 0 kept 4 periods 2 links 3 up 0\n'
     'this assumes a boot before a unit 4 line 9\nthis assumes a boot before b unit 3 line 10\n'),
    # what is assumed is told of an answer that is no acceptance too
    ('skipped_number_after_boot', unexplained('a', 7, 14, '7 WrongNumber', at_fault('a', 7, 14)) + 'this assumes a boot before a unit 4 line 9\n'),
    ('earlier_stack_after_boot', 'apart: b unit 7 line 18: 7 WrongNumber\n' + APART + 'this assumes a boot before a unit 4 line 9\n'),
    # a CC is answered by a DC; and the address of a call is given to another link
    ('call_given_up', 'accepted\na records 9 sent 4 received 2 damaged 0 kept 1 periods 1 links 1 up 0\n'
     'b records 9 sent 3 received 4 damaged 0 kept 2 periods 1 links 1 up 0\nthis assumes an abort of the call in a unit 2 line 5\n'),
    ('address_answers_after_call', 'accepted\na records 10 sent 4 received 2 damaged 0 kept 1 periods 1 links 2 up 0\n'
     'b records 9 sent 3 received 4 damaged 0 kept 2 periods 1 links 2 up 0\nthis assumes an abort of the call in a unit 2 line 5\n'),
    # there was no restart; the link was used after it; the link was used
    ('opened_again_without_restart', unexplained('a', 4, 9, '19 LinkState')),
    ('used_after_restart', unexplained('a', 7, 13, '19 LinkState')),
    ('no_link_of_used_call', unexplained('a', 4, 8, '19 LinkState')),
    # the units before the named one have a placing
    ('other_unit_named', 'apart: b unit 3 line 9: 6 WrongState\n' + APART),
    # a station that was started anew takes the STACK that answered its earlier start
    ('stack_of_earlier_start', 'apart: b unit 2 line 6: 7 WrongNumber\n' + APART),
)

NO_UNIT = 'wire: no unit\n'
MOSTLY = 'more bytes were skipped than read: these may not be two directions of a DDCMP line\n'


def data_of(num, resp, packet='05'):
    """A data message with this packet."""
    body = bytes.fromhex(packet)
    header = bytes([0x81, len(body) % 256, len(body) // 256, resp % 256, num % 256, 1])
    return (with_check(header) + with_check(body)).hex()


def rep_of(num):
    return with_check(bytes([5, 3, 0, 0, num % 256, 1])).hex()


def text_of(units):
    """The text in which these units passed, a piece each."""
    return 'ddwire 1 1.1 1.2\n' + ''.join('%s %s\n' % unit for unit in units)


def packet_of(side, message):
    """The packet in which a side sends this message of a link."""
    return ('0202040104' if side == 'a' else '0201040204') + '00' + message


# ---- texts with a rule each

def window_of_255():
    """255 packets are outstanding, and all are acknowledged at once; then one more."""
    sent = [('a', data_of(number, 0)) for number in range(1, 256)]
    return UP + sent + [('b', ack_of(255)), ('a', data_of(0, 0))]


def repeated_call():
    """A CI comes again after its answer: that is no other call, so the link is closed by its user."""
    call = packet_of('a', '18000001000102f401')
    again = packet_of('a', '68000001000102f401')
    confirm = packet_of('b', '28010002000102f40100')
    disconnect = packet_of('b', '3801000200000000')
    return UP + [('a', data_of(1, 0, call)), ('b', data_of(1, 1, confirm)), ('a', data_of(2, 0, again)), ('b', data_of(2, 2, disconnect))]


def nak_of_wrong_data():
    """A NAK came, and what it asks for is sent again with another packet: the number tells that the NAK came, and the packet is wrong."""
    return UP + [('a', data_of(1, 0)), ('a', data_of(2, 0)), ('b', nak_of(1, 0)), ('a', data_of(1, 0, '07'))]


def many_reps(count):
    """So many REPs are answered, by a NAK each."""
    sent = [('b', data_of(1, 0)), ('b', data_of(2, 0)), ('a', ack_of(0))] + [('b', rep_of(2))] * count
    return UP + sent + [('a', nak_of(3, 0)), ('b', data_of(1, 0)), ('b', data_of(2, 0))] + [('a', nak_of(3, 2))] * (count - 1)


def behind_a_nak(count):
    """A NAK comes, then data, then so many ACKs are sent, and then the packet again."""
    return UP + [('a', data_of(1, 0)), ('b', nak_of(9, 0)), ('b', data_of(1, 0))] + [('a', ack_of(1))] * count + [('a', data_of(1, 1))]


def segment_behind_an_end():
    """A link is ended by a DI, whose packet was kept; then a segment goes that waited in a queue, and the link's DC."""
    call, confirm = packet_of('a', '18000001000102f401'), packet_of('b', '28010002000102f40100')
    first, last = packet_of('a', '2002000100010061'), packet_of('a', '4002000100020062')
    end, answer = packet_of('b', '3801000200000000'), packet_of('a', '48020001002a00')
    return UP + [('a', data_of(1, 0, call)), ('b', data_of(1, 1, confirm)), ('a', data_of(2, 1, first)), ('b', data_of(2, 2, end)),
                 ('a', data_of(3, 2, last)), ('a', data_of(4, 2, answer))]


def many_rounds(count):
    """An ACK is lost, and so is each packet of b; that is seen long after."""
    rounds = [('b', data_of(1, 1)), ('b', rep_of(1)), ('a', nak_of(3, 0))] * count
    return UP + [('a', data_of(1, 0)), ('b', ack_of(1))] + rounds + [('a', rep_of(1))]


def long_message(size, piece):
    """A user's message of so many bytes, in pieces of so many, each acknowledged."""
    units, given = list(UP), {'a': 0, 'b': 0}

    def send(side, message):
        given[side] += 1
        units.append((side, data_of(given[side], given['b' if side == 'a' else 'a'], packet_of(side, message))))

    send('a', '18000001000102' + piece.to_bytes(2, 'little').hex())
    send('b', '28010002000102' + piece.to_bytes(2, 'little').hex() + '00')
    send('a', '04020001000080')
    count = (size + piece - 1) // piece
    for number in range(count):
        flag = (0x20 if number == 0 else 0) | (0x40 if number == count - 1 else 0)
        text = bytes((number * 7 + at) % 251 for at in range(min(piece, size - number * piece)))
        send('a', '%02x02000100' % flag + ((number + 1) % 4096).to_bytes(2, 'little').hex() + text.hex())
        send('b', '0401000200' + (0x8000 + (number + 1) % 4096).to_bytes(2, 'little').hex())
    return units


MADE = (
    ('a window of 255', window_of_255(), 'accepted\n'),
    ('a call that is repeated', repeated_call(), 'accepted\n'),
    ('a NAK of data that are wrong', nak_of_wrong_data(), unexplained('a', 4, 8, '10 Changed', at_fault('a', 4, 8))),
    ('300 REPs', many_reps(300), 'accepted\n'),
    ('60 rounds after a lost ACK', many_rounds(60), 'accepted\n'),
    ('1,100 ACKs behind a NAK', behind_a_nak(1100), 'accepted\n'),
    ('a segment behind the end of its link', segment_behind_an_end(), 'accepted\n'),
    ('a message of 65,535 bytes in 4,096 pieces', long_message(65_535, 16), 'accepted\n'),
    ('an STRT in which a line begins', [('a', STRT), ('b', STACK), ('a', ack_of(0)), ('a', data_of(2, 0)[:10]), ('a', data_of(2, 0)[10:])],
     unexplained('a', 2, 5, '7 WrongNumber', at_fault('a', 2, 5))),
)


def faults_of_answers(tap):
    """For each text how it is answered otherwise, or None."""
    for name, right in ANSWERS:
        with open(os.path.join(TOP, 'tools', 'lists', 'tap', name + '.wire'), encoding='ascii') as wire:
            fault = fault_of_answer(tap, wire.read(), right)
        yield '%s: %s' % (name, fault) if fault else None
    for name, units, right in MADE:
        fault = fault_of_answer(tap, text_of(units), right)
        yield '%s: %s' % (name, fault) if fault else None


def faults_of_silence(tap):
    """For texts in which nothing passed, or little, how they are answered otherwise, or None."""
    page = b'HTTP/1.1 200 OK\r\nContent-Type: text/html\r\n\r\n<p>no line</p>\r\n' * 200
    for text in (text_of([]), text_of([('a', page.hex())]), text_of([('a', MAINTENANCE), ('b', '9696ff')])):
        printed = tap.tap(text)
        yield None if printed == ('', NO_UNIT, 2) else 'no unit: printed %r' % (printed,)
    for strays, is_told in ((24, False), (25, True)):
        printed = tap.tap(text_of(UP + [('a', '07' * strays)]))
        right = 'accepted\n' in printed[0] and (MOSTLY in printed[0]) == is_told and printed[2] == 0
        yield None if right else '%d stray bytes: printed %r' % (strays, printed)


def fault_of_many(tap, count):
    """How so many units of one side before one of the other are not accepted, or None."""
    wire = 'ddwire 1 1.1 1.2\na %s\nb %s\na %s\n' % (STRT, STACK, ack_of(0)) + ('b %s\n' % ack_of(0)) * count
    printed = tap.tap(wire + 'b %s\na %s\n' % (data_of(1, 0), ack_of(1)))
    return None if printed[0].startswith('accepted\n') else 'many units of one side: printed %r' % (printed,)


# Where units of one side pile up, by how often: what was once looked over again for each unit.
PILES = (
    ('ACKs and STACKs of two sides that never meet', lambda count: UP[:2] + [('a', ack_of(0)), ('b', STACK)] * count),
    ('NAKs, then data, then data', lambda count: UP + [('b', nak_of(9, 0))] * count + [('b', data_of(1, 0)), ('a', data_of(1, 1))]),
    ('ACKs, then data, then data', lambda count: UP + [('b', ack_of(0))] * count + [('b', data_of(1, 0)), ('a', data_of(1, 1))]),
    ('NAKs, then data, then an ACK', lambda count: UP + [('b', nak_of(9, 0))] * count + [('b', data_of(1, 0)), ('a', ack_of(1))]),
    ('STRTs, then STACKs', lambda count: [('a', STRT)] * count + [('b', STACK)] * count + [('a', ack_of(0))]),
    ('REPs that are answered', lambda count: UP + [('b', data_of(1, 0))] + [('b', rep_of(1)), ('a', nak_of(3, 0))] * count),
)


def seconds_of(tap, units):
    """The processor time in which these units are accepted, or None: the least of three times."""
    text, times = text_of(units), []
    for _ in range(3):
        tap.put(text)
        before = os.times().children_user
        if not started(['tap', tap.wire, tap.a, tap.b])[0].startswith(b'accepted\n'):
            return None
        times.append(os.times().children_user - before)
    return min(times)


def faults_of_piles(tap, count):
    """For each pile how it is not accepted, or takes more than 24 times as long where it is eight times as high, or None: 64 times are a square."""
    for name, pile in PILES:
        low, high = (seconds_of(tap, pile(times)) for times in (count, 8 * count))
        fine = None not in (low, high) and high <= 24 * max(low, 0.03)
        yield None if fine else '%s: %r s, and %r s for eight times as many' % (name, low, high)


# ---- pairs that are played

def scripts():
    """The scripts of examples/ and of the rows, each with its name."""
    for path in sorted(glob.glob(os.path.join(TOP, 'examples', '*.script'))):
        with open(path, encoding='ascii') as script:
            yield os.path.basename(path), script.read()
    set_ups, rows = rows_of()
    for row in (*set_ups.values(), *rows):
        steps = row.steps()[:-1] if row.stopped else row.steps()
        yield row.name, HEAD + ''.join(step + '\n' for step in steps)


def is_without_restart(script):
    """Whether each side is started at most once."""
    return all(script.count('\n%s start\n' % side) <= 1 for side in 'ab')


def faults_of_scripts(tap):
    """For each script without a restart that plays a run, how what passed in it is not accepted, or None."""
    for name, script in share(scripts(), 3):
        if not is_without_restart(script):
            continue
        with open(tap.wire, 'w', encoding='ascii') as text:
            text.write(script)
        tap.run('play', tap.wire, tap.a, tap.b)
        if tap.check()[2]:
            continue
        printed = tap.tap(wire_text(tap.a, tap.b))
        is_right = printed[0].startswith('accepted\n') or printed == ('', NO_UNIT, 2)
        yield None if is_right else 'what %s plays: printed %r' % (name, printed)
