"""A station of the player, as the pages PLAYER and PROTOCOL say it, with numbers modulo 256: what it owes, what it sends, and what comes of an
arrival."""
from reading.player.units import control_unit, data_unit

# packets that may be outstanding
WINDOW = 255


class Station:
    """One station. `packets` are those that are not acknowledged, the first `gone` of which went since the start or the last NAK that came."""

    def __init__(self):
        self.state = 'HALTED'
        self.owed = set()
        self.received = self.acknowledged = self.gone = 0
        self.packets = []

    def owe(self, *things):
        """It owes these, each once."""
        self.owed.update(things)

    def enter(self, state):
        """It is in another state, and what it owed in that which it left is dropped."""
        self.owed.clear()
        self.state = state

    # ---- what the user and the timer do

    def start(self):
        """Whether the user can start it; then it is started."""
        if self.state != 'HALTED':
            return False
        self.enter('ISTRT')
        self.owe('STRT')
        self.received = self.acknowledged = self.gone = 0
        self.packets = []
        return True

    def halt(self):
        """Whether the user can halt it; then it is halted."""
        self.enter('HALTED')
        return True

    def time_out(self):
        """Whether its timer can run out; then it owes what this makes it owe."""
        state = self.state
        if state == 'HALTED':
            return False
        if state == 'ISTRT':
            self.owe('STRT')
        elif state == 'ASTRT':
            self.owe('STACK')
        elif state == 'RUNNING':
            self.ask_again()
        return True

    def ask_again(self):
        """What its timer makes it owe where it runs."""
        self.owe('REP' if self.packets else 'ACK')

    # ---- what it sends

    def unit(self, packet_of_links):
        """The next unit that it sends, or None. `packet_of_links()` is the next packet that the links have, or None."""
        if self.state in ('ISTRT', 'ASTRT'):
            return self.unit_of_start()
        if self.state == 'HALTED':
            return None
        return self.nak() or self.rep() or self.data(packet_of_links) or self.ack()

    def unit_of_start(self):
        """What it sends in ISTRT or ASTRT."""
        kind = 'STRT' if self.state == 'ISTRT' else 'STACK'
        if kind in self.owed:
            self.owed.discard(kind)
            return control_unit(kind, flags=0xc0)
        return None

    def resp(self):
        """RESP of what it sends."""
        return self.received % 256

    def nak(self):
        """The NAK that it owes with the lowest reason, or None."""
        reasons = sorted(thing for thing in self.owed if isinstance(thing, int))
        if not reasons:
            return None
        reason = reasons[0]
        self.owed.discard(reason)
        self.owed.discard('ACK')
        return control_unit('NAK', self.resp(), reason=reason)

    def rep(self):
        """The REP that it owes, or None."""
        if 'REP' not in self.owed:
            return None
        self.owed.discard('REP')
        return control_unit('REP', num=(self.acknowledged + len(self.packets)) % 256)

    def ack(self):
        """The ACK that it owes, or None."""
        if 'ACK' not in self.owed:
            return None
        self.owed.discard('ACK')
        return control_unit('ACK', self.resp())

    def data(self, packet_of_links):
        """The data message that it sends next, or None: a packet again, or a new one."""
        if self.gone == len(self.packets):
            packet = packet_of_links() if self.has_room() else None
            if packet is None:
                return None
            self.packets.append(packet)
        self.gone += 1
        self.owed.discard('ACK')
        number = self.acknowledged + self.gone
        return data_unit(self.resp(), number % 256, self.packets[self.gone - 1])

    def has_room(self):
        """Whether it may give one more packet."""
        return len(self.packets) < WINDOW
