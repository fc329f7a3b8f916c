"""The page over packet captures: rows of what has to be seen then. tools/tests/page_use calls them."""
from tests.made_pcaps import A, B, Connection, Packets, connected
from tests.nodes.wire_nodes import data
from tests.relay_peers import EXCHANGE, session

UNITS = session()
NOTE = '#note'
PART = b'ddcap 4 1.1 1.2 part\ns 050100000001fc55\nr - 050100000001fc55\n'


def verdict_of(use, path):
    """The verdict on a dropped file, which is there after what is noted of it."""
    use.drop(path)
    return verdict(use)


def verdict(use):
    return use.browser.until('globalThis.shown && shown.verdict.title')


def press(use, selector):
    """The verdict after a button."""
    use.browser.value('globalThis.shown = null')
    use.click(selector)
    return verdict(use)


def packet_captures(use):
    """A packet capture is judged as what passed on its line, and the page says where that is from."""
    use.clear()
    use.expect('a packet capture', verdict_of(use, use.file('line.pcap', connected(UNITS).pcap())) == 'Accepted')
    use.expect('from what it is taken', 'Taken from line.pcap: TCP, a %s, b %s:4000: %d units on 1 connectiona is node 1.1: so says a data packet'
               % (A, B, len(UNITS)) in use.text(NOTE))
    use.expect('its box', 'line.pcap' in use.text('#end-a .what') and 'ddwire 1 1.1 1.2' in use.text('#end-a .head'))
    saved = use.browser.value('[...document.querySelectorAll("#saved a")].map(it => it.download).join()')
    use.expect('what can be saved', saved == 'line.wire,line.a,line.b')
    use.expect('without links', press(use, '#line') == 'Accepted' and 'Taken from line.pcap' in use.text(NOTE))
    press(use, '#queued')
    packets = Packets()
    packets.exchange(UNITS)
    use.expect('datagrams, as pcapng', verdict_of(use, use.file('line.pcapng', packets.pcapng())) == 'Accepted' and 'UDP, a ' in use.text(NOTE))
    wrong = UNITS[:-2] + [('a', UNITS[-2][1])]
    wrong.insert(3, ('a', data(9, 0, b'\x05x')))
    use.expect('a wrong line', verdict_of(use, use.file('bad.pcap', connected(wrong).pcap())) == 'Unexplained')
    use.expect('its place', 'of the text made of bad.pcap' in use.text('#verdict dl'))


def lines_to_choose(use):
    """Of several lines one is chosen; bytes that are missing end the text, or are passed over; other files are told to be none."""
    packets = Packets()
    Connection(packets, (A, 40001), (B, 4000)).open().send_all(UNITS)
    Connection(packets, (B, 40002), (A, 4001)).open().send_all(EXCHANGE)
    use.expect('several lines', 'several.pcap: several lines are in the file. Which is it?Port 4000: TCP' in use.drop(
        use.file('several.pcap', packets.pcap())))
    use.expect('both as one too', 'Both as one line: each end calls the other' in use.text(NOTE))
    use.expect('one of them', press(use, '#note .lines button') == 'Accepted' and '%d units on 1 connection' % len(UNITS) in use.text(NOTE))
    use.expect('the other', press(use, '#note .lines button') == 'Accepted' and '%d units on 1 connection' % len(EXCHANGE) in use.text(NOTE))
    packets = Packets()
    line = Connection(packets).open().send_all(EXCHANGE)
    line.send('a', data(2, 0, b'\x05lost'))
    packets.drop(-2)
    line.send_all([('b', data(1, 2, b'\x05after')), ('a', data(3, 1, b'\x05more'))])
    use.expect('a lost packet', verdict_of(use, use.file('lossy.pcap', packets.pcap())) == 'Accepted')
    use.expect('is told', '15 bytes of a are missing in the file' in use.text(NOTE) and 'the text ends there' in use.text(NOTE))
    use.expect('and passed over', press(use, '#note button') == 'Unexplained' and 'after them correct nodes may be refused' in use.text(NOTE))
    use.expect('no line', 'no line of DDCMP is in the file. There are:TCP' in use.drop(
        use.file('web.pcap', connected([('a', b'GET / HTTP/1.0\r\n\r\n')]).pcap())))
    use.expect('the focus is there', use.browser.value('document.activeElement.id') == 'note')
    use.expect('no packet capture', 'it is damaged, or no packet capture' in use.drop(
        use.file('odd.pcap', connected(EXCHANGE).pcap()[:24] + b'\xff' * 400)))


CHOSEN = '[[...document.querySelectorAll("[name=choice]")].filter(it => !it.disabled).map(it => it.id).join(), document.querySelector(":checked").id]'


def parts_of_runs(use):
    """Of a part of a run DDCMP alone can be judged; what was chosen before comes back."""
    use.clear()
    use.expect('a part', use.drop(use.file('part.a', PART)) == 'Passed')
    use.expect('of which DDCMP alone is judged', use.browser.value(CHOSEN) == ['line', 'line'])
    packets = Packets()
    packets.exchange(UNITS)
    use.expect('what passed', verdict_of(use, use.file('line.pcap', packets.pcap())) == 'Accepted')
    use.expect('is judged as before', use.browser.value(CHOSEN) == ['queued,line', 'queued'])
    use.expect('so is one end', use.drop(use.file('one.a', b'ddcap 1 1.1 1.2\nu start\n')) == 'Passed')
    use.expect('which may be judged by all', use.browser.value(CHOSEN) == ['queued,plain,line', 'queued'])


PARTS = [packet_captures, lines_to_choose, parts_of_runs]
