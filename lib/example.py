#!/usr/bin/env python3
"""A test of a node that judges itself at its end: each node writes a capture of what it does, and the test asks ddcap whether both are a run.

    tools/build/library && python3 lib/example.py

The node here is a toy: it starts, and answers data by an ACK. What a test of yours takes over is `Node.note`, which writes the capture, and
`LineTest.judged`. Only DDCMP is judged (`line=True`), so a packet may be any bytes."""
import unittest

import ddcap


def check_bytes(content):
    """The block check of DDCMP, CRC-16, low byte first."""
    check = 0
    for byte in content:
        check ^= byte
        for _ in range(8):
            check = check >> 1 ^ (0xa001 if check & 1 else 0)
    return bytes([check & 0xff, check >> 8])


def control(kind, flags=0, resp=0):
    """A control message: ACK is kind 1, STRT 6, STACK 7."""
    header = bytes([5, kind, flags, resp, 0, 1])
    return header + check_bytes(header)


def data(packet, num, resp):
    """A data message with this packet."""
    header = bytes([0x81, len(packet) & 0xff, len(packet) >> 8, resp, num, 1])
    return header + check_bytes(header) + packet + check_bytes(packet)


class Node:
    """One end of a line, which notes what it does as a capture."""

    def __init__(self, own, peer):
        self.capture = 'ddcap 1 %s %s\n' % (own, peer)
        self.peer, self.sent, self.given, self.received = None, 0, 0, 0

    def note(self, *words):
        """Writes a record of the capture, when the node decides."""
        self.capture += ' '.join(map(str, words)) + '\n'

    def send(self, unit):
        """Sends a unit. The line of this test loses nothing."""
        self.note('s', unit.hex())
        number, self.sent = self.sent, self.sent + 1
        self.peer.comes(number, unit)

    def start(self):
        self.note('u', 'start')

    def comes(self, number, unit):
        """The peer's unit with this number came."""
        is_data = unit[0] == 0x81
        self.note('k' if is_data else 'r', number, unit.hex())
        if is_data:
            self.received = unit[4]
            self.acknowledge()
        elif unit[1] == 6:  # STRT
            self.send(control(7, flags=0xc0))
        elif unit[1] == 7:  # STACK
            self.send(control(1))

    def acknowledge(self):
        self.send(control(1, resp=self.received))

    def give(self, packet):
        """Sends a packet as data."""
        self.given += 1
        self.send(data(packet, self.given, self.received))


class LazyNode(Node):
    """A node with a mistake: it acknowledges one message less than came."""

    def acknowledge(self):
        self.send(control(1, resp=self.received - 1))


class HastyNode(Node):
    """A node with a mistake: it acknowledges one message more than came."""

    def acknowledge(self):
        self.send(control(1, resp=self.received + 1))


def talked(kind):
    """Both ends after they started and one gave the other two packets."""
    a, b = Node('1.1', '1.2'), kind('1.2', '1.1')
    a.peer, b.peer = b, a
    a.start()
    b.start()
    a.send(control(6, flags=0xc0))
    a.give(b'hello')
    a.give(b'world')
    return a, b


class LineTest(unittest.TestCase):
    """Each test ends with the judge, which finds what the test itself did not look for."""

    def judged(self, a, b):
        return ddcap.check(a.capture, b.capture, line=True)

    def test_a_right_node_is_accepted(self):
        answer = self.judged(*talked(Node))
        self.assertTrue(answer.is_accepted, answer.text)

    def test_a_wrong_acknowledgement_is_found(self):
        for kind in LazyNode, HastyNode:
            answer = self.judged(*talked(kind))
            self.assertTrue(answer.is_refused)
            self.assertIn('WrongResponse', answer.text)

    def test_one_end_tells_it_too(self):
        _, b = talked(HastyNode)
        self.assertTrue(ddcap.alone(b.capture, line=True).is_refused)


if __name__ == '__main__':
    unittest.main()
