"""With what tools/tests/test_recorder calls the recorders of examples/: each line, the longest ones, what can't be a line, and any values."""

# each line that format 3 has, and formats 1 and 2 have not
OF_FORMAT_3 = 'u boot', 'u abort 7', 'd 4 8101', 'd 9 -', 'x 02', 'x -', 'u interrupt 1 0102', 'u interrupted 65535 -'
EACH_LINE = '\n'.join(['ddcap 3 1.1 63.1023', 'u start', 'u open 7', 's 05', 's -', 'r 0 05', 'k 3 -', *OF_FORMAT_3, 'r 12 81', 'n -', 'n 0505',
                       'u accept 9 65535', 'u reject 1 2', 'u in 7 68', 'u up 7 -', 'u close 7', 'u halt']) + '\n'

# receipts that a part of a run has, and other captures have not; and one that a part has not, though format 3 has it
OF_PARTS = 'r - 05', 'k - -', 'd - 81'
LAST_OF_PARTS, LAST = ('r %d 05' % (10 ** 18 - back) for back in (2, 1))

# the longest lines, and some that are a byte too long or have a number out of range
LONGEST = 's %s\nu in 1 %s\nx %s\nu interrupt 1 %s\n' % tuple('05' * most for most in (16_393, 65_535, 16_383, 16))
LONG = 's %s\nr 0 %s\nr %d 05\nu in 1 %s\nx %s\nu interrupt 1 %s\n' % (
    '05' * 16_394, '05' * 16_394, 10 ** 18, '05' * 65_536, '05' * 16_384, '05' * 17)
NO_EVENTS = ('u begin', 'u open', 'u open 0', 'u open 65536', 'u open 01', 'u open 1 ', 'u open 1 2', 'u open  1', 'u open x', 'u open -1',
             'u accept 1', 'u accept 1 0', 'u start 1', 'u start ', 'u in 0 05', 'u up 99999999999999999999 05', 'u abort', 'u boot 1',
             'u interrupt 0 05', 'u in  1 05', 'u interrupter 1 05', 'u opening 1', 'u ')


def calls_of_no_line(recorder):
    """Calls of recorder.py that can't be a line in any format."""
    of_units = recorder.sent, recorder.noise, recorder.kept, recorder.received, recorder.dropped
    for unit in (bytes(16_394), 'units', 5, [256], None):
        yield from (lambda unit=unit, call=call: call(unit) for call in (*of_units, recorder.composed))
    yield lambda: recorder.composed(bytes(16_384))
    for number in (-1, 10 ** 18, 0.5, '0'):
        yield from (lambda number=number, call=call: call(b'', number) for call in of_units[2:])
    for event in (['begin'], ['open'], [''], [None], ['start 1'], ['open', 0], ['open', 65_536], ['open', 1.5], ['open', '1'], ['accept', 1],
                  ['accept', 1, 65_536], ['boot', 1], ['abort'], ['halt', 1], ['in', 1], ['interrupt', 1]):
        yield lambda event=event: recorder.user(*event)
    for event, message in (('close', b''), ('open', b''), ('up', bytes(65_536)), ('in', 'text'), ('interrupt', bytes(17)),
                           ('interrupted', bytes(17))):
        yield lambda event=event, message=message: recorder.user(event, 1, message=message)
    yield lambda: recorder.user('boot', message=b'')


def any_call(recorder, chance):
    """A call with values of which many can be no line."""
    unit = chance.choice([b'', b'\x05', bytes(16_383), bytes(16_384), bytes(16_393), bytes(16_394)])
    number = chance.choice([None, 0, 1, 10 ** 18 - 1, 10 ** 18, -1])
    call = chance.choice([recorder.sent, recorder.noise, recorder.composed, recorder.kept, recorder.received, recorder.dropped, recorder.user])
    if call == recorder.user:
        links = [chance.choice([1, 65_535, 0, 65_536]) for _ in range(chance.randrange(3))]
        message = chance.choice([None, b'', bytes(16), bytes(17), bytes(65_535), bytes(65_536)])
        event = chance.choice('start halt open accept reject in up close boot abort interrupt interrupted odd'.split())
        call(event, *links, message=message)
    elif call in (recorder.sent, recorder.noise, recorder.composed):
        call(unit)
    else:
        call(unit, number)
