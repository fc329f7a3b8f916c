"""Packets of a line to a router, written as if the router itself had every node behind it. Each pair of such a node and a link address of it gets one
address of the router's own; the router's own links, and all other packets, stay as they are."""
from captures import with_check, word
from reading.packets import read_nsp, read_packet, read_unit

HIGHEST = 65535  # the first address to be given to a pair whose own is taken
NO_LINK = 0
NO_OPERATION = bytes([8])
NODE_ONLY = 'no operation', 'connect ack'  # messages that name no address of their sender
ANSWERS = 'CC', 'DI', 'DC'  # those that a link which calls takes from the node that it calls


def with_nodes(packet, destination, source, message):
    return packet[:1] + word(destination) + word(source) + packet[5:6] + message


def with_addresses(message, destination=None, source=None):
    """The message with one of its link addresses changed."""
    if destination is not None:
        return message[:1] + word(destination) + message[3:]
    return message[:3] + word(source) + message[5:]


def unit_with(unit, packet):
    """A data message with another packet."""
    return with_check(bytes([unit[0], len(packet) & 255, unit[2] & 0xc0 | len(packet) >> 8]) + unit[3:6]) + with_check(packet)


def packet_in(unit):
    """The packet of a sound data message, or None."""
    read = read_unit(unit.hex())
    return read.packet if read.kind == 'data' else None


class Sent:
    """A packet of a link, with who sent it: its nodes, and its message, which is None where it can't be read."""

    def __init__(self, packet, read):
        self.packet, self.source, self.destination = packet, read.source, read.destination
        self.message, self.read = read.nsp, read_nsp(read.nsp)


def sent_in(packet):
    """The same of any packet, or None where it is of no link or on its way back."""
    read = packet and read_packet(packet)
    return Sent(packet, read) if read and read.nsp is not None and not read.returned else None


class View:
    """How the end node sees the line: `own` is its address, `peer` that of the router. `is_told` says whether the text tells which links are opened;
    else a link may call another node each time."""

    def __init__(self, own, peer, is_told):
        self.own, self.peer, self.is_told = own, peer, is_told
        self.taken, self.names, self.nodes, self.others = set(), {}, {}, set()
        self.highest = HIGHEST

    def note(self, sent, is_own):
        """The address of a link of the router itself stays free for it."""
        if sent and sent.read and {sent.source, sent.destination} == {self.own, self.peer}:
            address = sent.read.destination if is_own else sent.read.source
            if address is not None:
                self.take(self.peer, address)

    def take(self, node, address):
        self.taken.add(address)
        self.names[node, address] = address

    def name(self, node, address):
        """The address that stands for this one of this node. The same one, if it is free."""
        if address == NO_LINK or node == self.peer:
            return address
        if (node, address) not in self.names:
            while self.highest in self.taken:
                self.highest -= 1
            self.names[node, address] = self.highest if address in self.taken else address
            self.taken.add(self.names[node, address])
        return self.names[node, address]

    def opened(self, own_address, node=None):
        """A link with this node gets this address. Which node it calls, its CI will tell; before that, it is the router."""
        self.nodes[own_address] = node

    def packet(self, packet, is_own):
        """The packet as if the router had all nodes behind it."""
        sent = sent_in(packet)
        if sent is None:
            return packet
        if is_own:
            return self.own_packet(sent) if sent.source == self.own != sent.destination else packet
        return self.other_packet(sent) if sent.destination == self.own else packet

    def known(self, node):
        """The node, of which it is known now that it is behind the router, if it is."""
        self.others |= {node} - {self.own, self.peer}
        return node

    def own_packet(self, sent):
        message, read, node = sent.message, sent.read, self.known(sent.destination)
        if read and read.kind == 'CI':
            if not self.is_told:
                self.opened(read.source)
            if self.nodes.get(read.source) is None:
                self.opened(read.source, node)
            if self.nodes[read.source] != node:
                message = with_addresses(message, source=NO_LINK)  # it was opened to call another node: there is no such link
        elif read and read.destination:
            message = with_addresses(message, destination=self.name(node, read.destination))
        return with_nodes(sent.packet, self.peer, self.own, message)

    def other_packet(self, sent):
        message, read, node = sent.message, sent.read, self.known(sent.source)
        is_strange = node == self.own or read is None and node != self.peer
        if is_strange or read and read.kind in ANSWERS and node != (self.nodes.get(read.destination, node) or self.peer):
            message = NO_OPERATION  # of no link of this node
        elif read and read.kind not in NODE_ONLY:
            message = with_addresses(message, source=self.name(node, read.source))
        return with_nodes(sent.packet, self.own, self.peer, message)

    def unit(self, unit, is_own):
        """The same of the packet in a unit."""
        packet = packet_in(unit)
        folded = packet and self.packet(packet, is_own)
        return unit if folded == packet else unit_with(unit, folded)
