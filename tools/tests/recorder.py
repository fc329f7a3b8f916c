"""A recorder's mistakes in a pair of captures in format 1 or 3: what each makes of the lines, and what an edit of `ddcap why` makes of them again.
Lines are counted from 1, as there. A change or an edit whose words are nowhere here is a ValueError."""
import re

from reading.packets import read_nsp, read_packet, read_unit

RECEIPT = re.compile(r'([rkd]) (\d+) (\S+)')


# lines that format 3 alone has
OF_FORMAT_3 = re.compile(r'd .*|x .*|u boot|u (abort|interrupt|interrupted) .*')


def in_its_format(lines):
    """The lines of a capture, with the head of format 3 if one of them is only there."""
    head, *records = lines
    return [head.replace('ddcap 1 ', 'ddcap 3 ') if any(map(OF_FORMAT_3.fullmatch, records)) else head] + records


class Pair:
    """The lines of both captures, which are changed one after another."""

    def __init__(self, texts):
        self.lines = {letter: text.splitlines() for letter, text in zip('ab', texts)}

    def texts(self):
        return ['\n'.join(in_its_format(self.lines[letter])) + '\n' for letter in 'ab']

    def line(self, letter, number):
        return self.lines[letter][int(number) - 1]

    def bytes_of(self, letter, number):
        """The bytes of a unit's line."""
        return self.line(letter, number).split(' ')[-1]

    def put(self, letter, before, text):
        self.lines[letter].insert(int(before) - 1, text)

    def drop(self, letter, number):
        return self.lines[letter].pop(int(number) - 1)

    def move(self, letter, number, before):
        """A line goes in front of that one, which comes after it or before it."""
        number, before = int(number), int(before)
        text = self.drop(letter, number)
        self.put(letter, before - (number < before), text)

    def says(self, letter, number, verb):
        """A receipt has this letter."""
        _, hint, text = RECEIPT.fullmatch(self.line(letter, number)).groups()
        self.lines[letter][int(number) - 1] = '%s %s %s' % (verb, hint, text)

    def boots(self, letter, number):
        """The user did not halt the station: the node was started anew."""
        self.lines[letter][int(number) - 1] = 'u boot'

    def names(self, letter, number, unit, to_end=False):
        """A receipt has this hint; with `to_end` those of the later ones are shifted as far, and where they begin again they go on."""
        last, named = int(RECEIPT.fullmatch(self.line(letter, number))[2]), int(unit)
        lines = self.lines[letter]
        for at in range(int(number) - 1, len(lines) if to_end else int(number)):
            receipt = RECEIPT.fullmatch(lines[at])
            if receipt:
                verb, hint, text = receipt[1], int(receipt[2]), receipt[3]
                named = named + hint - last if hint >= last else named + 1
                last = hint
                lines[at] = '%s %d %s' % (verb, named, text)


# ---- the mistakes of tools/lists/why/mistakes.txt

CHANGES = [
    (r'drop (?P<letter>[ab]) (?P<number>\d+)', Pair.drop),
    (r'move (?P<letter>[ab]) (?P<number>\d+) before (?P<before>\d+)', Pair.move),
    (r'(?P<letter>[ab]) (?P<number>\d+) says (?P<verb>[rk])', Pair.says),
    (r'(?P<letter>[ab]) (?P<number>\d+) names (?P<unit>\d+)', Pair.names),
    (r'from (?P<letter>[ab]) (?P<number>\d+) names (?P<unit>\d+)', lambda pair, **words: pair.names(to_end=True, **words)),
]


def spoiled(change, texts):
    """The texts with a mistake."""
    return changed(CHANGES, change, texts)


# ---- the edits of `ddcap why`

def put_sent(pair, letter, before, like, other):
    pair.put(letter, before, 's ' + pair.bytes_of(other, like))


def put_receipt(pair, letter, before, verb, unit, like, other):
    pair.put(letter, before, '%s %s %s' % (verb, unit, pair.bytes_of(other, like)))


def put_damaged(pair, letter, before, unit, like, other):
    """A bit of the check that the NAK in that line names is turned."""
    unit_bytes = bytearray.fromhex(pair.bytes_of(other, like))
    unit_bytes[7 if tells_of_header(pair, letter, before) else -1] ^= 1
    pair.put(letter, before, 'r %s %s' % (unit, unit_bytes.hex()))


def put_noise(pair, letter, before):
    """Damage of which the NAK in that line tells: of a header, or of data that are cut after a good one."""
    pair.put(letter, before, 'n ' + ('00' if tells_of_header(pair, letter, before) else '810100000101e381'))


def tells_of_header(pair, letter, nak):
    return int(pair.bytes_of(letter, nak)[4:6], 16) & 63 == 1


def put_delivery(pair, letter, before, link):
    """The message is that of the kept segments down to the line in front."""
    message, at = b'', int(before) - 1
    while True:
        receipt = RECEIPT.fullmatch(pair.line(letter, at))
        segment = receipt and receipt[1] == 'k' and segment_of(receipt[3], int(link))
        if segment:
            message = segment.body + message
            if segment.flag & 0x20:
                return pair.put(letter, before, 'u up %s %s' % (link, message.hex() or '-'))
        at -= 1


def segment_of(text, link):
    """The segment to this link that these bytes are, or None."""
    unit = read_unit(text)
    packet = read_packet(unit.packet) if unit.kind == 'data' else None
    message = read_nsp(packet.nsp) if packet and packet.nsp else None
    return message if message and message.kind == 'segment' and message.destination == link else None


def put_user(pair, letter, before, words):
    pair.put(letter, before, 'u ' + words)


def put_message(pair, letter, before, link):
    """The message is that of the segment which is refused without it."""
    message = read_nsp(read_packet(read_unit(pair.bytes_of(letter, before)).packet).nsp)
    pair.put(letter, before, 'u in %s %s' % (link, message.body.hex() or '-'))


def move_behind(pair, letter, number, behind):
    pair.move(letter, number, int(behind) + 1)


HERE = r'before line (?P<before>\d+) of (?P<letter>[ab])'
LINE = r'line (?P<number>\d+) of (?P<letter>[ab])'
LIKE = r'with the bytes of line (?P<like>\d+) of (?P<other>[ab])'
EDITS = [
    (LINE + r' is `(?P<verb>[rkd])`, not `[rkd]`', Pair.says),
    (LINE + r' is `u boot`, not `u halt`', Pair.boots),
    (r'an `s` line is missing ' + HERE + r': unit \d+, ' + LIKE, put_sent),
    (r'an? `(?P<verb>[rkd])` line is missing ' + HERE + r': unit (?P<unit>\d+) of [ab], ' + LIKE, put_receipt),
    (r'the `r` line of a damaged unit is missing ' + HERE + r': unit (?P<unit>\d+) of [ab], sent in line (?P<like>\d+) of (?P<other>[ab])',
     put_damaged),
    (r'an `n` line is missing ' + HERE, put_noise),
    (r'`u up (?P<link>\d+)` with the message is missing ' + HERE, put_delivery),
    (r'`u (?P<words>start|halt|boot|(?:open|close|abort) \d+|(?:accept|reject) \d+ \d+)` is missing ' + HERE, put_user),
    (r'`u in (?P<link>\d+)` with the message is missing ' + HERE, put_message),
    (LINE + r' is too late: it belongs before line (?P<before>\d+)', Pair.move),
    (LINE + r' is too early: it belongs after line (?P<behind>\d+)', move_behind),
    (r'only ' + LINE + r' has a wrong hint: it is unit (?P<unit>\d+) of [ab]', Pair.names),
    (r'from ' + LINE + r' on the hints are shifted: it is unit (?P<unit>\d+) of [ab]', lambda pair, **words: pair.names(to_end=True, **words)),
]


def mended(words, texts):
    """The texts as the words of an edit have them."""
    return changed(EDITS, words, texts)


def changed(table, words, texts):
    for pattern, change in table:
        found = re.fullmatch(pattern, words)
        if found:
            pair = Pair(texts)
            change(pair, **found.groupdict())
            return pair.texts()
    raise ValueError('what change is %r?' % words)
