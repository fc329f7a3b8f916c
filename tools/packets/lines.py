"""The connections in a file, and which of them are one line."""
from packets.ways import SYN, Stream, Way

RST, ACK = 0x04, 0x10
SOON = 1  # seconds in which a datagram with the same identification and bytes is the same one, that the file has twice


def place_of(end):
    return ('[%s]:%d' if ':' in end[0] else '%s:%d') % end


def counted(number, noun):
    return '%d %s%s' % (number, noun, '' if number == 1 else 's')


class Ends:
    """Two ends between which packets went: `a` and `b` are a host and a port each. `tells_sides` says whether which is which is certain."""

    def turn(self):
        self.a, self.b = self.b, self.a


class Connection(Ends):
    """A TCP connection. Where the file lacks its beginning, the end with the higher port is taken to have opened it."""

    kind, twice = 'TCP', 0

    def __init__(self, packet):
        self.start = packet.sequence if packet.flags & (SYN | ACK) == SYN else None
        self.tells_sides = packet.flags & SYN != 0
        ends = packet.source, packet.target
        if self.tells_sides:
            self.a, self.b = reversed(ends) if packet.flags & ACK else ends
        else:
            self.b, self.a = sorted(ends, key=lambda end: (end[1], end))
        self.ways = {self.a: Stream(), self.b: Stream()}

    def has(self, packet):
        """Whether a packet between its ends belongs to it, not to the next one."""
        return packet.flags & (SYN | ACK) != SYN or packet.sequence == self.start

    def take(self, packet):
        self.ways[packet.source].take(packet)
        if packet.flags & (ACK | RST) == ACK:
            self.ways[packet.target].hear(packet)


class Exchange(Ends):
    """The datagrams between two ends. The one that sent first is taken to be a."""

    kind, tells_sides = 'UDP', False

    def __init__(self, packet):
        self.a, self.b = packet.source, packet.target
        self.ways = {self.a: Way(), self.b: Way()}
        self.begins = self.ends = packet.moment
        self.came, self.twice = {}, 0

    def has(self, _):
        return True

    def take(self, packet):
        self.ends = packet.moment
        if packet.identity:
            same = packet.source, packet.identity, packet.payload
            before, self.came[same] = self.came.get(same), packet.time
            if before is not None and packet.time - before < SOON:
                self.twice += 1
                return
        self.ways[packet.source].take(packet)


class Line:
    """All connections of two ends: `host_a` opened them, and `b`, a host and a port, was called."""

    def __init__(self, first):
        self.kind, self.host_a, self.b = first.kind, first.a[0], first.b
        self.connections = [first]

    def goes_on_with(self, connection):
        """Whether a later connection is of it. Over UDP a may go on from another port, but not while the old one is used."""
        is_same = (connection.kind, connection.a[0], connection.b) == (self.kind, self.host_a, self.b)
        return is_same and (self.kind == 'TCP' or self.connections[-1].ends < connection.begins)

    def ways(self):
        return [way for connection in self.connections for way in connection.ways.values()]

    def units(self):
        return sum(way.units for way in self.ways())

    def is_ddcmp(self):
        """Whether most of its bytes are units."""
        return self.units() and sum(way.bytes_in_units for way in self.ways()) >= sum(way.bytes_between for way in self.ways())

    def called_at(self, port):
        """Whether side b has this port."""
        return self.b[1] == port

    def may_turn(self):
        """Whether side a may as well be b: no connection tells which end was called."""
        return not any(each.tells_sides for each in self.connections)

    def may_be_called_at(self, port):
        """Whether what is side a now has this port and may be b."""
        return self.may_turn() and any(each.a[1] == port for each in self.connections)

    def port_among(self, lines):
        """A port that names this line, if possible alone among these."""
        is_alone = sum(each.called_at(self.b[1]) for each in lines) == 1
        return self.b[1] if is_alone or not self.may_turn() else self.connections[-1].a[1]

    def turn(self):
        """What was side a is b."""
        for each in self.connections:
            each.turn()
        self.host_a, self.b = self.connections[-1].a[0], self.connections[-1].b

    def told(self):
        units = counted(self.units(), 'unit')
        if self.kind == 'UDP':
            return 'UDP, a %s, b %s: %s' % (place_of(self.connections[-1].a), place_of(self.b), units)
        empty = sum(not any(way.pieces for way in connection.ways.values()) for connection in self.connections)
        words = 'TCP, a %s, b %s: %s on %s' % (self.host_a, place_of(self.b), units, counted(len(self.connections) - empty, 'connection'))
        return words + (', and %s that carried nothing' % counted(empty, 'attempt') if empty else '')


def connections_of(packets):
    """All connections, in the order in which they begin."""
    found, last = [], {}
    for packet in packets:
        ends = packet.kind, frozenset((packet.source, packet.target))
        if ends not in last or not last[ends].has(packet):
            last[ends] = (Connection if packet.kind == 'tcp' else Exchange)(packet)
            found.append(last[ends])
        last[ends].take(packet)
    return found


def lines_of(packets, goes_on):
    """All lines in these packets, those that are none of DDCMP among them; with `goes_on` also what passed after bytes that are missing."""
    connections, lines = connections_of(packets), {}
    called = {each.b for each in connections if each.tells_sides}
    for connection in connections:
        if not connection.tells_sides and connection.kind == 'TCP' and connection.a in called and connection.b not in called:
            connection.turn()
        for way in connection.ways.values():
            way.end(goes_on)
        same = lines.setdefault((connection.kind, connection.a[0], connection.b), [])
        if same and same[-1].goes_on_with(connection):
            same[-1].connections.append(connection)
        else:
            same.append(Line(connection))
    return [line for same in lines.values() for line in same]
