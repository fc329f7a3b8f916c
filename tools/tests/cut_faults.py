"""One fault in the records of both sides. `spoilt(chance, pieces)` plants it in the lists of records. A part of
tools/tests/cut_pairs.py."""
from captures import with_check
from reading.player.units import control_unit

RECEIPTS = 'r', 'k', 'd'


def bytes_in(record):
    """The unit in a record, or no bytes."""
    verb, *words = record.split(' ')
    return bytes.fromhex(words[-1].replace('-', '')) if verb in ('s', 'n', *RECEIPTS) else b''


def with_bytes(record, unit):
    return ' '.join([*record.split(' ')[:-1], unit.hex() or '-'])


def is_receipt(record):
    return record.split(' ')[0] in RECEIPTS


def other_unit(chance, unit):
    """A unit that is like this one, with right checks."""
    if len(unit) < 8:
        return unit
    kind = chance.choice(('resp', 'resp', 'num', 'num', 'other', 'data'))
    head, near = bytearray(unit[:6]), chance.choice((-1, 1, 1, 2, -2, chance.randrange(256)))
    if kind == 'data' and unit[0] == 0x81 and len(unit) > 10:
        packet = bytearray(unit[8:-2])
        packet[chance.randrange(len(packet))] ^= 1 << chance.randrange(8)
        return unit[:8] + with_check(bytes(packet))
    if kind == 'other' and unit[0] == 5:
        other = chance.choice(('ACK', 'NAK', 'REP', 'STRT', 'STACK'))
        resp = unit[3] if other in ('ACK', 'NAK') else 0
        return control_unit(other, resp, unit[3] or unit[4] if other == 'REP' else 0, chance.choice((1, 2, 3, 8, 9)) if other == 'NAK' else 0)
    place = 4 if kind == 'num' and (unit[0] == 0x81 or unit[1] == 3) else 3
    head[place] = (head[place] + near) % 256
    return with_check(bytes(head)) + unit[8:]


# ---- the faults: each plants itself in the records of one side, `own`, beside those of the other one, where there is a place for it

def unit_changed(chance, own, other):
    """A unit is another one, where it is sent and where it comes."""
    sent = [place for place, record in enumerate(own) if record.startswith('s ')]
    if sent:
        number = chance.randrange(len(sent))
        before = own[sent[number]]
        own[sent[number]] = with_bytes(before, other_unit(chance, bytes_in(before)))
        for place, record in enumerate(other):
            words = record.split(' ')
            if is_receipt(record) and words[1] == str(number) and words[-1] == before.split(' ')[-1]:
                other[place] = with_bytes(record, bytes_in(own[sent[number]]))


def record_changed(chance, own, other):
    """A unit is another one in one record alone."""
    places = [place for place, record in enumerate(own) if bytes_in(record)]
    if places:
        place = chance.choice(places)
        own[place] = with_bytes(own[place], other_unit(chance, bytes_in(own[place])))


def damaged(chance, own, other):
    """A bit of a record is turned."""
    places = [place for place, record in enumerate(own) if bytes_in(record)]
    if places:
        place = chance.choice(places)
        unit = bytearray(bytes_in(own[place]))
        unit[chance.randrange(len(unit))] ^= 1 << chance.randrange(8)
        own[place] = with_bytes(own[place], bytes(unit))


def left_out(chance, own, other):
    if own:
        out(chance, own, other, chance.randrange(len(own)))


def out(chance, own, other, place):
    """A record is left out. The other side's hints mostly count without it."""
    number = sum(record.startswith('s ') for record in own[:place])
    if own.pop(place).startswith('s ') and chance.random() < 0.7:
        counted(other, number + 1, -1)


def counted(other, number, more):
    """The hints from this number on are so much higher."""
    for place, record in enumerate(other):
        words = record.split(' ')
        if is_receipt(record) and words[1] != '-' and int(words[1]) >= number and int(words[1]) + more >= 0:
            other[place] = ' '.join([words[0], str(int(words[1]) + more), words[2]])


def twice(chance, own, other):
    if own:
        place = chance.randrange(len(own))
        put_in(chance, own, other, place, own[place])


def put_in(chance, own, other, place, record):
    """A record is put in. The other side's hints mostly count it."""
    number = sum(line.startswith('s ') for line in own[:place])
    own.insert(place, record)
    if record.startswith('s ') and chance.random() < 0.7:
        counted(other, number, 1)


def moved(chance, own, other):
    if own:
        record = own.pop(chance.randrange(len(own)))
        own.insert(chance.randrange(len(own) + 1), record)


def letter(chance, own, other):
    """A receipt has another letter."""
    places = [place for place, record in enumerate(own) if is_receipt(record)]
    data = [place for place in places if bytes_in(own[place])[:1] == b'\x81']
    if places:
        place = chance.choice(data or places)
        own[place] = chance.choice(RECEIPTS) + own[place][1:]


def hint(chance, own, other):
    """The hint of one receipt is another, or those of all from there on are."""
    places = [place for place, record in enumerate(own) if is_receipt(record)]
    if places:
        is_all, more = chance.random() < 0.5, chance.choice((-1, 1, 1, 2, 10, 1000))
        begin = chance.choice(places)
        for place in places:
            if place == begin or is_all and place > begin:
                word = own[place].split(' ')[1]
                number = chance.choice((0, 1)) if word == '-' else int(word) + more
                other_word = '-' if number < 0 or word != '-' and chance.random() < 0.1 else str(number)
                own[place] = ' '.join([own[place][:1], other_word, own[place].split(' ')[-1]])


def event(chance, own, other):
    own.insert(chance.randrange(len(own) + 1), chance.choice(('u start', 'u halt', 'u boot', 'n -', 'n 050100000001fc55')))


def said(chance, own, other):
    """Something is sent that nothing else here speaks of."""
    kind, number = chance.choice(('ACK', 'NAK', 'NAK', 'REP', 'STRT', 'STACK')), chance.choice((chance.randrange(256), chance.randrange(4)))
    last = [bytes_in(record) for record in own if record.startswith('s ')]
    number = chance.choice(last)[chance.choice((3, 4))] if last and chance.random() < 0.7 else number
    resp, num = number if kind in ('ACK', 'NAK') else 0, number if kind == 'REP' else 0
    unit = control_unit(kind, resp, num, chance.choice((1, 2, 3, 8, 9)) if kind == 'NAK' else 0)
    put_in(chance, own, other, chance.randrange(len(own) + 1), 's ' + unit.hex())


FAULTS = ((unit_changed, 8), (record_changed, 4), (damaged, 2), (left_out, 4), (twice, 3), (moved, 2), (letter, 2), (hint, 4), (event, 2), (said, 3))


def spoilt(chance, pieces):
    """Plants a fault in one side of these records."""
    faults, weights = zip(*FAULTS)
    fault, side = chance.choices(faults, weights)[0], chance.choice('ab')
    fault(chance, pieces[side], pieces['ba'['ab'.index(side)]])
