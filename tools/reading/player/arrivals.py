"""What comes of a message that arrives at a station of the player, row by row of the table on the page PROTOCOL, and what it makes it owe, by
the page PLAYER. `arrived` answers whether the packet is kept."""


def arrived(station, message, has_buffer):
    """Whether the packet in this message is kept, once all has become of it that becomes of it."""
    kind = message.kind
    if kind in ('header bad', 'data bad'):
        damaged(station, kind)
        return False
    return PARTS[station.state](station, message, has_buffer)


def damaged(station, kind):
    """Damage came, of a unit or as noise."""
    if station.state == 'RUNNING':
        station.owe(1 if kind == 'header bad' else 2)


def in_halted(station, message, has_buffer):
    """Nothing, whatever comes."""
    return False


def in_istrt(station, message, has_buffer):
    """What comes where it has started."""
    if message.kind == 'STRT':
        station.enter('ASTRT')
        station.owe('STACK')
    elif message.kind == 'STACK':
        station.enter('RUNNING')
        station.owe('ACK')
    return False


def in_astrt(station, message, has_buffer):
    """What comes where it has seen a STRT."""
    if message.kind == 'STRT':
        station.owe('STACK')
    elif message.kind == 'STACK':
        station.enter('RUNNING')
        station.owe('ACK')
    elif message.kind in ('ACK', 'data') and message.resp == 0:
        station.enter('RUNNING')
        return message.kind == 'data' and take(station, message, has_buffer)
    return False


def in_running(station, message, has_buffer):
    """What comes where it runs."""
    if message.kind == 'STRT':
        station.enter('HALTED')
    elif message.kind == 'STACK':
        station.owe('ACK')
    elif message.kind == 'REP':
        answer(station, message)
    else:
        respond(station, message.resp)
        if message.kind == 'NAK':
            station.gone = 0
    return message.kind == 'data' and take(station, message, has_buffer)


def respond(station, resp):
    """RESP acknowledges, where it lies above A and at most at N. T is never behind it."""
    count = (resp - station.acknowledged) % 256
    if count > len(station.packets):
        return
    del station.packets[:count]
    station.acknowledged = (station.acknowledged + count) % 256
    station.gone = max(0, station.gone - count)
    if not station.packets:
        station.owed.discard('REP')


def take(station, message, has_buffer):
    """Whether the packet is kept: the next one, where there is a buffer. Any other is passed over."""
    if message.num != (station.received + 1) % 256:
        return False
    if not has_buffer:
        station.owe(8)
        return False
    station.received = message.num
    station.owe('ACK')
    return True


def answer(station, message):
    """A REP came: it asks whether all through its NUM came."""
    station.owe('ACK' if message.num == station.received else 3)


PARTS = {'HALTED': in_halted, 'ISTRT': in_istrt, 'ASTRT': in_astrt, 'RUNNING': in_running}
