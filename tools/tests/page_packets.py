"""The page's reader of packet captures beside tools/wire_pcap, in node: tools/tests/test_pcap calls it for each of its files."""
import os
import shutil
import subprocess

from tests.program import TOP
from tests.relay_peers import expect

READER = os.path.join(TOP, 'tools', 'tests', 'page_packets.mjs')
PATIENCE = 120  # seconds

# What the tool says, and the page shows by buttons.
FOR_WORDS = (': name one by its port. Where each end calls the other, name both ports',
             ' (`tshark -r FILE -Y "ip.addr == HOST" -w ONE` takes those of one host)', '; there are')
OF_TSHARK = 'wire_pcap: tshark: '  # it says in its own words why a file is none


class Page:
    """How many files the page answered as the tool did."""

    def __init__(self):
        self.has_node = shutil.which('node') is not None
        self.files = 0

    def compare(self, path, words, tool):
        """The page writes the same, says the same, and ends so."""
        if not self.has_node:
            return
        page = subprocess.run(['node', READER, path, *words], stdin=subprocess.DEVNULL, capture_output=True, text=True, timeout=PATIENCE)
        expect(page.returncode == tool.returncode, 'the page: status %d, not %d: %s' % (page.returncode, tool.returncode, page.stderr + tool.stderr))
        expect(page.stdout == tool.stdout, 'the page: %r, not %r' % (page.stdout, tool.stdout))
        said = tool.stderr
        for each in FOR_WORDS:
            said = said.replace(each, '')
        expect(said.startswith(OF_TSHARK) or page.stderr == said, 'the page says %r, not %r' % (page.stderr, said))
        self.files += 1

    def told(self):
        return '%d files alike' % self.files if self.has_node else 'not run, since node is not installed'
