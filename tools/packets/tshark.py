"""The TCP segments and UDP datagrams in a packet capture, as tshark tells them."""
import shutil
import subprocess
import tempfile
from collections import namedtuple
from decimal import Decimal

INSTALLING = ('tshark is not installed. It comes with Wireshark: `apt install tshark` (Debian, Ubuntu), `dnf install wireshark-cli` (Fedora), '
              '`brew install wireshark` (macOS)')
FIELDS = ('frame.number', 'frame.time_epoch', 'ip.src', 'ipv6.src', 'ip.dst', 'ipv6.dst', 'ip.id', 'tcp.srcport', 'tcp.dstport', 'tcp.flags',
          'tcp.seq', 'tcp.ack', 'tcp.len', 'tcp.payload', 'udp.srcport', 'udp.dstport', 'udp.length', 'udp.payload')
FILTER = '(tcp or udp) and not icmp and not icmpv6'  # the headers that an ICMP message quotes are no packets
UDP_HEADER = 8
CUT = 'cut short'  # as tshark says of a file that ends within a packet

# `source` and `target` are a host and a port. `length` is that of the payload as it was sent. `moment` counts the packets by their times.
Packet = namedtuple('Packet', 'frame time kind source target flags sequence acknowledged length payload identity moment')


class Failure(Exception):
    """Why there is no text, and the status."""


def packet_of(row):
    """The packet of a row of fields, or None where the file has not even its header."""
    told = dict(zip(FIELDS, row.split('\t')))
    kind = 'tcp' if told['tcp.srcport'] else 'udp'
    if not told['tcp.len'] and not told['udp.length']:
        return None
    source, target = ((told['ip.' + end] or told['ipv6.' + end], int(told['%s.%sport' % (kind, end)])) for end in ('src', 'dst'))
    payload = bytes.fromhex(told[kind + '.payload'].replace(':', ''))
    common = int(told['frame.number']), Decimal(told['frame.time_epoch']), kind, source, target
    if kind == 'tcp':
        return Packet(*common, int(told['tcp.flags'], 16), int(told['tcp.seq']), int(told['tcp.ack'] or 0), int(told['tcp.len']), payload, 0, 0)
    return Packet(*common, None, None, None, int(told['udp.length']) - UDP_HEADER, payload, int(told['ip.id'] or '0', 16), 0)


def packets_of(path):
    """The packets of a file by their times, and whether the file ends within a packet."""
    program = shutil.which('tshark')
    if not program:
        raise Failure(INSTALLING, 3)
    words = [program, '-n', '-r', path, '-o', 'tcp.relative_sequence_numbers:FALSE', '-Y', FILTER, '-T', 'fields', '-E', 'occurrence=f']
    for field in FIELDS:
        words += ['-e', field]
    with tempfile.TemporaryFile('w+', errors='replace') as said:
        ran = subprocess.Popen(words, stdout=subprocess.PIPE, stderr=said, text=True)
        with ran:
            packets = [packet for row in ran.stdout if (packet := packet_of(row.rstrip('\n')))]
        said.seek(0)
        reasons = [line.strip() for line in said if line.startswith('tshark: ')]
    is_cut = any(CUT in line for line in reasons)
    if ran.returncode and not is_cut:
        raise Failure(reasons[-1] if reasons else 'tshark ended with %d' % ran.returncode, 2)
    packets.sort(key=lambda packet: packet.time)
    return [packet._replace(moment=moment) for moment, packet in enumerate(packets)], is_cut
