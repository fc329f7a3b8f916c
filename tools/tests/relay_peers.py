"""Two peers on this machine with tools/wire_relay between them, for tools/tests/test_relay: the relay as a process, what the peers send in turn, and
what `ddcap tap` makes of the text that is written."""
import os
import socket
import subprocess
import tempfile
import threading
import time

from tests.nodes.wire_nodes import ACK, FLAGS, STACK, STRT, control, data
from tests.program import PROGRAM, TOP

RELAY = os.path.join(TOP, 'tools', 'wire_relay')
EXAMPLE = os.path.join(TOP, 'examples', 'two_way_links.wire')
PATIENCE = 20  # seconds that a step may take
STARTUP = [('a', control(STRT, FLAGS)), ('b', control(STACK, FLAGS)), ('a', control(ACK))]
PACKET = data(1, 0, b'\x05' + bytes(200))
EXCHANGE = STARTUP + [('a', PACKET), ('b', control(ACK, 0, 1))]


class Relay:
    """A relay that writes its text into a file, and side b's port."""

    def __init__(self, *options, output=None, before=None, is_b_late=False, kind=socket.SOCK_STREAM, host='127.0.0.1',
                 here='127.0.0.1:0'):
        self.b = socket.socket(socket.AF_INET, kind)
        self.b.bind(('127.0.0.1', 0))
        self.b.settimeout(PATIENCE)
        if kind == socket.SOCK_STREAM and not is_b_late:
            self.b.listen()
        self.text = tempfile.NamedTemporaryFile(prefix='relay')
        self.said, self.changed = '', threading.Condition()
        there = '%s:%d' % (host, self.b.getsockname()[1])
        self.process = subprocess.Popen([RELAY, *options, here, there, '1.1', '1.2'], stdin=subprocess.DEVNULL,
                                        stdout=output or self.text, stderr=subprocess.PIPE, text=True, preexec_fn=before)
        self.listener = threading.Thread(target=self.hear, daemon=True)
        self.listener.start()

    def __enter__(self):
        return self

    def __exit__(self, *_):
        self.process.kill()
        self.process.wait()
        self.b.close()
        self.text.close()

    def hear(self):
        for line in self.process.stderr:
            with self.changed:
                self.said += line
                self.changed.notify_all()

    def await_words(self, words, times=1):
        with self.changed:
            if not self.changed.wait_for(lambda: self.said.count(words) >= times, PATIENCE):
                raise AssertionError('it did not say %r: %r' % (words, self.said))

    def await_lines(self, count):
        until = time.monotonic() + PATIENCE
        while self.written().count('\n') < count:
            expect(time.monotonic() < until, 'the text has fewer than %d lines' % count)
            time.sleep(0.01)

    def port(self):
        self.await_words('waiting for')
        return int(self.said.split('\n')[0].rpartition(':')[2])

    def connect(self):
        """Side a's connection."""
        a = socket.create_connection(('127.0.0.1', self.port()), PATIENCE)
        a.settimeout(PATIENCE)
        return a

    def accept(self):
        """Side b's."""
        b, _ = self.b.accept()
        b.settimeout(PATIENCE)
        return b

    def ended(self, number=None):
        """How it ended, after this signal."""
        if number:
            self.process.send_signal(number)
        status = self.process.wait(PATIENCE)
        self.listener.join(PATIENCE)
        return status

    def written(self):
        with open(self.text.name, encoding='ascii') as text:
            return text.read()


def tapped(text):
    """What `ddcap tap` prints of a text, and its status."""
    with tempfile.TemporaryDirectory() as folder:
        with open(os.path.join(folder, 'wire'), 'w', encoding='ascii') as wire:
            wire.write(text)
        ran = subprocess.run([PROGRAM, 'tap', 'wire', 'a', 'b'], cwd=folder, capture_output=True, text=True, timeout=PATIENCE)
        return ran.stdout + ran.stderr, ran.returncode


def wire_text(units):
    return 'ddwire 1 1.1 1.2\n' + ''.join('%s %s\n' % (side, unit.hex()) for side, unit in units)


def session():
    """The pieces of an example."""
    with open(EXAMPLE, encoding='ascii') as wire:
        return [(side, bytes.fromhex(piece)) for side, piece in (line.split() for line in wire.read().splitlines()[1:])]


def taken(end, count):
    """So many bytes that come, or those until the other side closes."""
    come = b''
    while len(come) < count:
        piece = end.recv(count - len(come))
        if not piece:
            break
        come += piece
    return come


def exchange(a, b, units):
    """Each unit is sent once the one before it has come."""
    for side, unit in units:
        here, there = (a, b) if side == 'a' else (b, a)
        here.sendall(unit)
        expect(taken(there, len(unit)) == unit, 'a unit of %s did not come' % side)


def expect(is_right, what):
    if not is_right:
        raise AssertionError(what)


def expect_text(relay, units):
    """The text says that these passed, and `tap` accepts it."""
    expect(relay.written() == wire_text(units), 'the text is %r' % relay.written())
    printed, status = tapped(relay.written())
    expect(status == 0, 'tap says %r' % printed)
    expect(printed == tapped(wire_text(units))[0], 'tap says %r' % printed)
