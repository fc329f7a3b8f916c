"""Two DDCMP stations that talk over a TCP connection, as emulators do, by rules of their own, and tools/wire_relay between them, which writes down
what passes (the text that `ddcap tap` reads). They are kept apart from the crates and from tools/reading/judging.py: what a station sends is made
here anew. They carry routing control packets both ways, keep up to seven outstanding, ask by a REP where nothing is acknowledged, and refuse some
packets for want of a buffer, as a seed says. `recorded(seed, packets)` is the text of such a session."""
import asyncio
import os
import random
import socket
import struct

RELAY = os.path.join(os.path.dirname(os.path.dirname(os.path.dirname(os.path.realpath(__file__)))), 'wire_relay')
ACK, NAK, REP, STRT, STACK = 1, 2, 3, 6, 7
MOST_OUTSTANDING = 7
NO_BUFFER = 8
FLAGS = 0xc0  # QSYNC and SELECT, of a STRT and a STACK
WAIT = 0.05  # seconds until a station asks again


def block_check(field):
    """The check of these bytes: a polynomial of 16 bits, the lowest bit first."""
    register = 0
    for byte in field:
        register ^= byte
        for _ in range(8):
            register = register >> 1 ^ (0xa001 if register & 1 else 0)
    return struct.pack('<H', register)


def control(kind, subtype=0, resp=0, num=0):
    head = bytes([5, kind, subtype, resp, num, 1])
    return head + block_check(head)


def data(num, resp, body):
    head = bytes([0x81]) + struct.pack('<H', len(body)) + bytes([resp, num, 1])
    return head + block_check(head) + body + block_check(body)


class Station:
    """One end: it starts, sends its packets in order, and is done when all are acknowledged and the other end's have come."""

    def __init__(self, reader, writer, rng, packets, awaited):
        self.reader, self.writer, self.rng = reader, writer, rng
        self.packets, self.awaited = packets, awaited
        self.state = 'ISTRT'
        self.received = self.acknowledged = self.given = 0
        self.next = 1
        self.is_ack_owed = False
        self.quiet = 0

    def is_done(self):
        return self.state == 'RUNNING' and self.acknowledged == len(self.packets) and self.received == self.awaited and not self.is_ack_owed

    def say(self, unit):
        # between units emulators send SYN, and some pad with ff
        self.writer.write(b'\x96' * self.rng.choice([0, 0, 4]) + unit + b'\xff' * self.rng.choice([0, 0, 1]))

    async def run(self):
        self.say(control(STRT, FLAGS))
        while not self.is_done():
            try:
                await asyncio.wait_for(self.hear(), WAIT)
            except asyncio.TimeoutError:
                self.ask_again()
            self.send_what_may_go()
            await self.writer.drain()
        # the other end may ask once more
        while True:
            try:
                await asyncio.wait_for(self.hear(), 4 * WAIT)
            except (asyncio.TimeoutError, asyncio.IncompleteReadError):
                return
            self.send_what_may_go()
            await self.writer.drain()

    async def hear(self):
        first = await self.reader.readexactly(1)
        while first in (b'\x96', b'\xff'):
            first = await self.reader.readexactly(1)
        head = first + await self.reader.readexactly(7)
        body = b''
        if head[0] == 0x81:
            count = struct.unpack('<H', head[1:3])[0] & 0x3fff
            body = (await self.reader.readexactly(count + 2))[:-2]
        self.quiet = 0
        self.meet(head, body)

    def meet(self, head, body):
        if head[0] == 0x81:
            self.meet_data(head[3], head[4])
        elif head[1] == STRT:
            self.meet_strt()
        elif head[1] == STACK and self.state != 'HALTED':
            self.state = 'RUNNING'
            self.is_ack_owed = True
        elif head[1] == ACK and (self.state == 'RUNNING' or head[3] == 0):
            self.state = 'RUNNING'
            self.respond(head[3])
        elif head[1] == NAK and self.state == 'RUNNING':
            self.respond(head[3])
            self.next = self.acknowledged + 1
        elif head[1] == REP and self.state == 'RUNNING':
            if head[4] == self.received % 256:
                self.is_ack_owed = True
            else:
                self.say(control(NAK, 3, self.received % 256))

    def meet_strt(self):
        if self.state != 'RUNNING':
            self.state = 'ASTRT'
            self.say(control(STACK, FLAGS))

    def meet_data(self, resp, num):
        if self.state == 'ASTRT' and resp == 0:
            self.state = 'RUNNING'
        if self.state != 'RUNNING':
            return
        self.respond(resp)
        if num != (self.received + 1) % 256:
            return
        if self.rng.random() < 0.05:
            self.say(control(NAK, NO_BUFFER, self.received % 256))
            return
        self.received += 1
        self.is_ack_owed = True

    def respond(self, resp):
        ahead = (resp - self.acknowledged) % 256
        if ahead <= self.given - self.acknowledged:
            self.acknowledged += ahead
            self.next = max(self.next, self.acknowledged + 1)

    def send_what_may_go(self):
        if self.state != 'RUNNING':
            return
        most = min(len(self.packets), self.acknowledged + MOST_OUTSTANDING)
        while self.next <= most:
            self.say(data(self.next % 256, self.received % 256, self.packets[self.next - 1]))
            self.given = max(self.given, self.next)
            self.next += 1
            self.is_ack_owed = False
        if self.is_ack_owed:
            self.say(control(ACK, 0, self.received % 256))
            self.is_ack_owed = False

    def ask_again(self):
        self.quiet += 1
        if self.state == 'ISTRT':
            self.say(control(STRT, FLAGS))
        elif self.state == 'ASTRT':
            self.say(control(STACK, FLAGS))
        elif self.given > self.acknowledged:
            self.say(control(REP, 0, 0, self.given % 256))


async def connected(port):
    """A connection to this port, as soon as somebody listens there."""
    for _ in range(200):
        try:
            return await asyncio.open_connection('127.0.0.1', port)
        except ConnectionRefusedError:
            await asyncio.sleep(WAIT)
    raise ConnectionRefusedError('nobody listens on %d' % port)


def free_port():
    with socket.create_server(('127.0.0.1', 0)) as listening:
        return listening.getsockname()[1]


async def session(seed, packets):
    rng = random.Random(seed)
    bodies = {name: [b'\x05packet %d of %s' % (number, name.encode()) for number in range(1, packets + 1)] for name in 'ab'}
    arrived = asyncio.Queue()

    async def accepted(reader, writer):
        await arrived.put((reader, writer))

    listener = await asyncio.start_server(accepted, '127.0.0.1', 0)
    port, port_b = free_port(), listener.sockets[0].getsockname()[1]
    relay = await asyncio.create_subprocess_exec(RELAY, '--once', str(port), '127.0.0.1:%d' % port_b, '1.1', '1.2',
                                                 stdout=asyncio.subprocess.PIPE, stderr=asyncio.subprocess.DEVNULL)
    wire = asyncio.create_task(relay.communicate())
    a = await connected(port)
    b = await arrived.get()
    stations = [Station(*ends, random.Random(rng.random()), bodies[name], packets) for name, ends in (('a', a), ('b', b))]
    await asyncio.gather(*(station.run() for station in stations))
    for _, writer in (a, b):
        writer.close()
    text, _ = await wire
    listener.close()
    return text.decode()


def recorded(seed, packets):
    """What passed between two stations, as tools/wire_relay wrote it down."""
    return asyncio.run(asyncio.wait_for(session(seed, packets), 60))
