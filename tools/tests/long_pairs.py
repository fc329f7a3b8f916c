"""Refused pairs that are long: a record of as many bytes as a capture can have, all packets that may be outstanding, all segments that may be, and
many links. `long_pairs()` gives where each comes from, and its texts."""
import io
import os
import subprocess
import tempfile

from captures import Bodies, Link, Session, ack_of, packet_of
from tests.program import TOP

LONGEST_PACKET = 16383
LINKS = 1000


def longest_record(a, b):
    """A data message of 16,393 bytes with the wrong number."""
    session = Session(a, b)
    session.given[0] = 1
    session.sends(0, session.unit(0, packet_of(bytes([5]) * LONGEST_PACKET)))


def many_links(a, b):
    """A thousand links in RUN. Side a has given a segment on 20 of them, and side b acknowledges 15 of these to the user of a, where that never
    comes. Then the RESP of a is one too high."""
    session = Session(a, b)
    links = [Link(session, address, address + 1) for address in range(1, 2 * LINKS, 2)]
    for link in links:
        session.carries(0, link.ack(0))
        session.acknowledges(1)
    unfinished = links[::LINKS // 20]
    for link in unfinished:
        session.carries(0, link.segment(0, Bodies(3), 0))
        session.acknowledges(1)
    for link in unfinished[5:]:
        session.sends(1, session.unit(1, link.ack(1)))
    session.acknowledges(1)
    session.sends(0, ack_of(session.kept[0] + 1))


def written(make):
    """The texts of the pair that is made so."""
    a, b = io.StringIO(), io.StringIO()
    make(a, b)
    return [a.getvalue(), b.getvalue()]


def full_link_window():
    with tempfile.TemporaryDirectory() as folder:
        paths = [os.path.join(folder, letter) for letter in 'ab']
        subprocess.run([os.path.join(TOP, 'tools', 'full_link_window'), *paths], check=True)
        return texts_of(paths)


def texts_of(paths):
    texts = []
    for path in paths:
        with open(path) as capture:
            texts.append(capture.read())
    return texts


def long_pairs():
    yield 'a record of 16,393 bytes', written(longest_record)
    yield '255 packets are outstanding', texts_of([os.path.join(TOP, 'examples', 'full_window.' + letter) for letter in 'ab'])
    yield '2,047 segments are outstanding', full_link_window()
    yield 'of %d links some have something open' % LINKS, written(many_links)
