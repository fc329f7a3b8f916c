"""What passes between right nodes with queues whose packets leave open what they began or answered, or which packets a restart let through, for
`tools/tests/test_tap`; and lines on which much is assumed, which take time in proportion."""
from captures import ack_of
from tests.tap_texts import STACK, STRT, UP, data_of, long_message, packet_of, seconds_of, text_of


class Passed:
    """Units of both sides in the order in which they pass, each packet with the next number of its side, and with what came by then."""

    def __init__(self, is_up=True):
        self.units, self.given, self.came = list(UP) if is_up else [], {'a': 0, 'b': 0}, {'a': 0, 'b': 0}

    def sends(self, side, *messages):
        """The side sends these messages of links; the other has kept them when it sends next."""
        for message in messages:
            self.given[side] += 1
            self.units.append((side, data_of(self.given[side], self.came[side], packet_of(side, message))))
            self.came['b' if side == 'a' else 'a'] = self.given[side]
        return self

    def says(self, *units):
        """Units without a packet."""
        self.units += units
        return self

    def starts(self, *units):
        """These units, after which numbers begin anew."""
        self.given, self.came = {'a': 0, 'b': 0}, {'a': 0, 'b': 0}
        return self.says(*units)


def word(number):
    return number.to_bytes(2, 'little').hex()


def call(own, flag='18'):
    return flag + '0000' + word(own) + '0102' + word(500)


def confirm(own, far):
    return '28' + word(far) + word(own) + '0102' + word(500) + '00'


def end(own, far):
    return '38' + word(far) + word(own) + '000000'


def no_link(own, far):
    return '48' + word(far) + word(own) + word(41)


def acknowledge(own, far):
    return '04' + word(far) + word(own) + word(0x8000)


def segment(own, far, number=1):
    return '60' + word(far) + word(own) + word(number) + '61'


def heard(far):
    return '24' + word(far)


def restart(answer):
    """b kept a call, both start anew, and b answers the STRT at once, without its own; then it answers the call so."""
    line = Passed().sends('a', call(1)).starts(('a', STRT), ('b', STACK), ('a', ack_of(0)))
    return line.sends('b', answer).units


def restarts_twice():
    """a kept a call, both start anew twice, and a acknowledges the call."""
    line = Passed(False).says(('b', STRT), ('a', STACK)).says(('a', STRT), ('b', STRT), ('a', STACK))
    line.sends('b', call(1), call(2)).starts(('a', STRT), ('b', STRT), ('a', STACK), ('a', STRT), ('a', STRT), ('b', STACK))
    return line.sends('a', heard(2)).units


def calls_given_up(count):
    """So many calls that a gives up before their CC comes."""
    line = Passed()
    for number in range(count):
        line.sends('a', call(1)).sends('b', confirm(number % 65_535 + 1, 1)).sends('a', no_link(1, number % 65_535 + 1))
    return line.units


def both_boot(count):
    """So often both nodes boot, while their link lives, and call again from its address."""
    line = Passed(False)
    for _ in range(count):
        line.starts(('a', STRT), ('b', STRT), ('a', STACK), ('b', ack_of(0)))
        line.sends('a', call(1)).sends('b', confirm(1, 1)).sends('a', acknowledge(1, 1), segment(1, 1))
    return line.units


# Each with the first line of the answer, or its beginning.
MEANT = (
    ('a CI that goes again after its link was closed',
     Passed().sends('a', call(1)).sends('b', confirm(7, 1), end(7, 1)).sends('a', call(1), segment(1, 7), no_link(1, 7)), 'accepted\n'),
    ('a first CI with the mark of one that goes again',
     Passed().sends('b', call(9)).sends('a', confirm(3, 9)).sends('b', end(9, 3)).sends('a', call(3, '68')), 'accepted\n'),
    ('a refused CI that goes again twice',
     Passed().sends('a', call(5)).sends('b', no_link(0, 5)).sends('a', call(5, '68'), call(5)).sends('b', confirm(8, 5)).says(('a', ack_of(2))),
     'accepted\n'),
    ('a DC from address 0 after the user rejected, and a connect acknowledgement',
     Passed().sends('a', call(2)).sends('b', no_link(0, 2), heard(2)), 'accepted\n'),
    ('a DC from address 0 after the user rejected, and the DI', Passed().sends('a', call(2)).sends('b', no_link(0, 2), end(6, 2)), 'accepted\n'),
    ('a DC from address 0 after the user accepted, and the CC', Passed().sends('a', call(2)).sends('b', no_link(0, 2), confirm(6, 2)), 'accepted\n'),
    ('a call that is ended while its CC waits',
     Passed().sends('a', call(4)).sends('a', no_link(4, 6)).sends('b', confirm(6, 4), no_link(6, 4)), 'accepted\n'),
)

RESTARTS = (
    ('a connect acknowledgement after a start without STRT', restart(heard(1)), 'accepted\n'),
    ('a CC after a start without STRT', restart(confirm(4, 1)), 'accepted\n'),
    ('a call that is kept before two starts of both', restarts_twice(), 'accepted\n'),
)

# By how often something is assumed.
ASSUMED = (('calls given up', calls_given_up), ('boots of both', both_boot))


def faults_of_assumed(tap, count):
    """For each line how it is answered otherwise, or its captures are; where so much is assumed, and eight times as much, how that is not in
    proportion; and how a message that no capture can hold is not told. Or None."""
    for name, line, right in tuple((name, line.units, right) for name, line, right in MEANT) + RESTARTS:
        printed = tap.tap(text_of(line))
        yield None if printed[0].startswith(right) and not tap.check()[2] else '%s: printed %r' % (name, printed)
    for name, line in ASSUMED:
        out = tap.tap(text_of(line(600)))[0]
        lines = [int(told.split()[-1]) for told in out.splitlines() if told.startswith('this assumes ')]
        fine = out.startswith('accepted\n') and len(lines) >= 599 and lines == sorted(lines)
        yield None if fine else '600 %s: %d are told, %r' % (name, len(lines), out[:80])
        low, high = (seconds_of(tap, line(times)) for times in (count, 8 * count))
        fine = None not in (low, high) and high <= 16 * max(low, 0.05)
        yield None if fine else '%s: %r s, and %r s for eight times as many' % (name, low, high)
    printed = tap.tap(text_of(long_message(65_536, 16)))
    yield None if printed == ('', 'wire: line %d: too long\n' % (6 + 2 * 4_096), 2) else 'a message of 65,536 bytes: printed %r' % (printed,)
