"""The page as somebody uses it: rows of files that are chosen, and what has to be seen then. tools/tests/test_page runs them in a browser."""
import gzip
import os
import time

from lists.pair_lists import lines_below
from lists.pairs import capture_of
from tests.page_line import PARTS as LINE_PARTS
from tests.page_work import PARTS
from tests.program import TOP

LISTS = os.path.join(TOP, 'tools', 'lists')

GOOD = b'ddcap 1 1.1 1.2\nu start\ns 0506c00000017595\n'
OTHER = b'ddcap 1 1.2 1.1\nu start\nr 0 0506c00000017595\n'

# Files that are not what they seem, by their names: what is said of each, and the title once its button was pressed, where there is one.
STRANGE = [
    ('empty.a', b'', 'is empty', None),
    ('packed.a', gzip.compress(GOOD), 'is a gzip file', 'Passed'),
    ('torn.gz', gzip.compress(GOOD)[:20], 'is a gzip file', 'could not be unpacked'),
    ('line.pcap', bytes.fromhex('d4c3b2a10200040000000000'), 'no packet of TCP or UDP is in the file', None),
    ('line.pcapng', bytes.fromhex('0a0d0d0a1c0000004d3c2b1a'), 'no packet of TCP or UDP is in the file', None),
    ('some.zip', b'PK\x03\x04' + bytes(20), 'is a zip archive', None),
    ('windows.a', GOOD.replace(b'\n', b'\r\n'), 'with CR at the end of its lines', 'Passed'),
    ('marked.a', b'\xef\xbb\xbf' + GOOD, 'with a byte order mark', 'Passed'),
    ('wide.a', GOOD.decode().encode('utf-16'), 'is text in UTF-16', 'Passed'),
    ('some.png', b'\x89PNG\r\n\x1a\n', 'is a picture (PNG)', None),
    ('random.a', bytes(range(256)), 'is no plain text', None),
    ('notes.txt', b'hello\nworld\n', 'is no capture', None),
]

# Captures of side a with a fault, and what is said of the line.
FAULTY = [
    (GOOD[:-1], 'the text breaks off here'),
    (GOOD + b's 0506C00000017595\n', 'a capital digit'),
    (GOOD + b's 0506c0000001759\n', 'odd in number'),
    (GOOD + b'\n', 'it is empty'),
    (GOOD + b'# note\n', 'a comment'),
    (GOOD + b'u start \n', 'ends with a space'),
    (GOOD + b'r 0506c00000017595\n', 'number of the unit'),
    (b'ddcap 1 1.1\nu start\n', 'The first line has to be the head'),
]


TRIES, SECONDS = 3, 2


class Use:
    """A page that is used."""

    def __init__(self, browser, page, folder):
        self.browser, self.page, self.folder = browser, page, folder
        self.count, self.faults = 0, []

    def expect(self, name, holds):
        self.count += 1
        if not holds:
            self.faults.append(name)

    def file(self, name, content):
        path = os.path.join(self.folder, name)
        with open(path, 'wb') as file:
            file.write(content)
        return path

    def choose(self, side, *paths):
        """Chooses files for a side, and waits for what is said: the title of the verdict, or the note."""
        self.browser.value('globalThis.shown = null; document.querySelector("#note").hidden = true')
        self.browser.choose('#end-%s input' % side, *paths)
        return self.said()

    def drop(self, *paths, on='h1'):
        """Drops files somewhere on the page, whatever it shows, and waits likewise."""
        self.browser.value('globalThis.shown = null; document.querySelector("#note").hidden = true')
        self.browser.drop(on, *paths)
        said = self.said()
        self.browser.value('new Promise(later => setTimeout(later, 300))')  # it may scroll
        return said

    def said(self):
        note = 'document.querySelector("#note")'
        return self.browser.until('globalThis.shown ? shown.verdict.title : !%s.hidden && %s.textContent' % (note, note))

    def text(self, selector):
        return self.browser.value('document.querySelector(%r).textContent' % selector)

    def click(self, selector):
        self.browser.value('document.querySelector(%r).click()' % selector)

    def judge(self, selector):
        """Clicks what judges anew, and waits for what is said."""
        self.browser.value('globalThis.shown = null; document.querySelector(%r).click()' % selector)
        return self.said()

    def clear(self):
        self.click('#clear')


def example(name):
    return os.path.join(TOP, 'examples', name)


def several_drops(use):
    """One drop after another."""
    use.clear()
    use.expect('one end passes', use.choose('a', use.file('one.a', GOOD)) == 'Passed')
    use.expect('and with the other it is accepted', use.choose('b', use.file('one.b', OTHER)) == 'Accepted')
    use.expect('a pair at once', use.choose('a', example('wrong_response.a'), example('wrong_response.b')) == 'Refused')
    use.expect('the place', 'line 5 of wrong_response.a' in use.text('#verdict'))
    use.expect('DDCMP alone', use.judge('#line') == 'Refused' and 'line 5 of wrong_response.a' in use.text('#verdict'))
    use.browser.until('document.querySelector("#panel").textContent.includes("Look for")')
    use.expect('and with links again', use.judge('#plain') == 'Refused')
    use.expect('a wire text takes the place of both', use.choose('b', example('two_way_links.wire')) == 'Accepted')
    chosen = '[document.querySelector("#plain").disabled, document.querySelector("[name=choice]:checked").id]'
    use.expect('queues are always allowed for on the wire', use.browser.value(chosen) == [True, 'queued'])
    saved = use.browser.value('[...document.querySelectorAll("#saved a")].map(it => it.download).join()')
    use.expect('its captures can be saved', saved == 'line.a,line.b')
    use.expect('a wire text without an explanation', use.choose('a', os.path.join(LISTS, 'tap', 'skipped_number.wire')) == 'Unexplained')
    use.expect('its place, and no accused of captures', 'unit 7 of a' in use.text('#verdict') and 'Accused' not in use.text('#verdict'))
    use.expect('under which condition', 'is at fault at its unit 7 (line 16), if the recording is whole: ' in use.text('#verdict .meaning'))
    use.expect('on what it rests', 'every unit sent passed this point' in use.text('#verdict .meaning'))
    use.expect('a segment that was left out', use.choose('a', os.path.join(LISTS, 'tap', 'skipped_segment.wire')) == 'Unexplained')
    use.expect('that a correct node may have discarded it', 'only if it discarded packets that it had composed' in use.text('#verdict .meaning'))
    use.expect('a late recording', use.choose('a', use.file('late.wire', b'ddwire 1 1.1 1.2\na 050100000001fc55\n')) == 'Unexplained')
    use.expect('that it begins in the middle', 'so neither node is accused: record again' in use.text('#verdict .meaning'))
    use.expect('a script too', use.choose('a', example('lost_and_damaged.script')) == 'Accepted')
    use.expect('a pair in place of a script', use.choose('a', example('two_links.a'), example('two_links.b')) == 'Accepted')
    use.expect('as it was chosen before', use.browser.value(chosen) == [False, 'plain'])
    use.judge('#queued')
    use.click('#swap')
    use.expect('swapped sides', 'two_links.b' in use.text('#end-a') and use.said() == 'Accepted')
    use.clear()
    use.expect('cleared', use.browser.value('document.querySelector("#result").hidden'))


def texts_that_do_not_pair(use):
    """A text of both ends is judged by itself, whatever is dropped beside it; two recordings of one end are asked about."""
    wire, script, capture = example('two_way_links.wire'), example('lost_and_damaged.script'), example('two_links.a')
    for pair in (capture, wire), (wire, use.file('again.wire', b'ddwire 1 1.1 1.2\n')), (script, capture), (wire, use.file('empty.z', b'')):
        use.clear()
        use.drop(*pair)
        use.browser.until('globalThis.shown')
        name = next(name for name in sorted(map(os.path.basename, pair)) if name.endswith(('.wire', '.script')))
        use.expect('%s is judged by itself' % name, name + ' is of both ends' in use.text('#note') and 'is left out' in use.text('#note'))
        use.expect('%s: it alone is left' % name, name in use.text('#end-a') and 'Not needed' in use.text('#end-b'))
        use.expect('%s: it alone is marked' % name, 'good' not in use.browser.value('document.querySelector("#end-b").className'))
    for name, content, words in ('copy.a', GOOD, 'recordings of the same end?'), ('far.b', b'ddcap 2 1.3 1.1\n', 'the two ends of one line?'):
        use.clear()
        use.drop(use.file('one.a', GOOD), use.file(name, content))
        use.browser.until('globalThis.shown')
        use.expect(words, words in use.text('#note'))
        use.browser.value('new Promise(later => setTimeout(later, 500))')  # it scrolls
        use.expect('the question is to be seen', use.browser.value('document.querySelector("#note").getBoundingClientRect().top >= 0'))
    use.clear()
    pair = [use.file('windows.' + side, text.replace(b'\n', b'\r\n')) for side, text in (('a', GOOD), ('b', OTHER))]
    use.expect('CRs in both', 'with CR at the end of its lines' in use.drop(*pair))
    use.click('#note button')
    use.browser.until('globalThis.shown')
    use.expect('are taken out at once', use.text('#verdict h2') == 'Accepted')
    use.clear()
    with open(wire, 'rb') as file:
        lines = file.read().splitlines(keepends=True)
    more = use.file('more.wire', b''.join(lines[:3] + [b'a 112233445566\n'] + lines[3:]))
    use.expect('a wire text with other bytes', use.choose('a', more) == 'Accepted')
    use.expect('what was skipped', 'Skipped of what a sent: 0 maintenance messages, 6 bytes' in use.text('#verdict .meaning'))


# Refused pairs by their names; what is said of the cause, the lines that contradict each other, and what the second one is.
CAUSES = [
    (('examples', 'wrong_response'), 'End a acknowledged the wrong message', '5 of wrong_response.a', '2 of wrong_response.a', 'no data message'),
    (('examples', 'wrong_delivery'), 'End b delivered', '21 of wrong_delivery.b', '14 of wrong_delivery.a', 'handed in at a'),
    (('examples', 'crossed_period'), 'End b acted on a message', '8 of crossed_period.b', '5 of crossed_period.a', 'What a sent as unit 1'),
    ((LISTS, 'why', 'line_missing'), 'End a received bytes that end b did not send', '32 of line_missing.a', '20 of line_missing.b',
     'What b sent as unit 11'),
]


def causes(use):
    """Pairs that are dropped by the mouse, one after another, show the cause at once: a sentence, both lines side by side, the rule, the accused."""
    for path, sentence, line, other, what in CAUSES:
        pair = [os.path.join(TOP, *path) + '.' + side for side in 'ab']
        use.expect('%s is refused' % path[-1], use.drop(*pair) == 'Refused')
        columns = use.browser.value('[...document.querySelectorAll("#verdict .column")].map(it => it.textContent)')
        use.expect('%s: the sentence' % path[-1], use.text('#verdict .cause').startswith(sentence))
        use.expect('%s: both lines: %s' % (path[-1], columns), len(columns) == 2 and 'Refused' in columns[0] and 'line ' + line in columns[0]
                   and 'line ' + other in columns[1] and what in columns[1])
        told = use.browser.value('ddcap.ask(["why", "a", "b"], ddcap.texts()).then(it => new TextDecoder().decode(it.out))')
        accused = next(line.split(maxsplit=1)[1] for line in told.splitlines() if line.startswith('accused '))
        use.expect('%s: the accused' % path[-1], accused in use.text('#verdict'))
        use.expect('%s: the first line' % path[-1], use.text('#verdict .first') == told.splitlines()[0])
        seen = use.browser.value('(it => it.top >= 0 && it.top < innerHeight / 2)(document.querySelector("#verdict .cause").getBoundingClientRect())')
        use.expect('%s: it is to be seen' % path[-1], seen)
    use.expect('what was seen and allowed', 'DATA 5/1' in use.text('#verdict .seen') and 'ACK /2' in use.text('#verdict .allowed'))
    use.expect('the recording', 'is missing before line 19 of b' in use.text('#verdict dl'))
    for box in '#end-a', '#end-b':
        use.clear()
        use.expect('one end on %s' % box, use.drop(example('one_end.a'), on=box) == 'Refused')
        use.expect('the other end did it', use.text('#verdict .cause').startswith('The other end acknowledged'))
        use.expect('its file', 'line 6 of one_end.a' in use.text('#verdict .column'))
        use.expect('in its place', 'one_end.a' in use.text(box) and 'bad' in use.browser.value('document.querySelector(%r).className' % box))
        use.expect('it is refused as DDCMP alone', use.judge('#line') == 'Refused')
        use.expect('likewise', use.text('#verdict .cause').startswith('The other end acknowledged'))
        use.click('#queued')


# Refused pairs of tools/lists/pairs/worked_queues.txt, which nodes with queues do not make either, and what is said of that.
REFUSED_QUEUED = [
    ('a new segment after the DI came; it is still the next piece, refused', 'is no excuse: with one this line is refused too, for reason 20'),
    ('a data ack after the DI came; not after the own DC, refused', 'this line is refused too, for the same reason'),
    ('close: once, refused', 'would excuse this line. With one, line 11 of listed.a is refused, for reason 19'),
]


def listed(use, name):
    """The captures of a pair of that list, as files."""
    line = next(line for lines in lines_below('worked_queues.txt').values() for line in lines if ', '.join(line.turns) == name)
    return [use.file('listed.' + side, capture_of(side, records).encode()) for side, records in zip('ab', line.pair)]


def queues(use):
    """Where a queue between NSP and DDCMP explains a refusal, that is said, and judging so is offered; and where it doesn't, that is said too."""
    pair, columns = [example('message_after_close.' + side) for side in 'ab'], '[...document.querySelectorAll("#verdict .column p")]'
    use.clear()
    use.expect('a message after the close is accepted', use.drop(*pair) == 'Accepted')
    use.expect('of nodes that act at once it is refused', use.judge('#plain') == 'Refused')
    use.expect('a queue explains it', 'Judged as such, the pair is accepted.' in use.text('#verdict .queue'))
    use.expect('the close is shown', 'line 11 of message_after_close.a' in use.browser.value(columns + '[1].textContent'))
    use.expect('nobody is accused', 'nobody: a node with a queue' in use.text('#verdict dl'))
    use.expect('judged with a queue', use.judge('#verdict .queue button') == 'Accepted')
    use.expect('that is chosen', use.browser.value('document.querySelector("#queued").checked && document.activeElement.id === "verdict"'))
    use.expect('and said', 'A queue between NSP and DDCMP was allowed for.' in use.text('#verdict .meaning'))
    for number, words in (1, 'DC 2>1'), (2, 'DC 2>1'), (3, 'went through 15 of 88 rows'):  # what comes after the message
        use.click('#tab-%d' % number)
        shown = '(it => it.textContent + (it.firstChild?.shadowRoot || it).textContent)(document.querySelector("#panel"))'
        use.expect('tab %d of nodes with queues' % number, use.browser.until('%s.includes(%r)' % (shown, words)))
    use.clear()
    use.expect('the next end with a queue', use.drop(pair[0], on='#end-a') == 'Passed')
    use.expect('and without', use.judge('#plain') == 'Refused')
    use.expect('of one end too', 'Judged as such, this end passes.' in use.text('#verdict .queue'))
    use.expect('and it is not accused then', 'nobody, if this node has a queue' in use.text('#verdict dl'))
    for name, words in REFUSED_QUEUED:
        use.clear()
        use.drop(*listed(use, name))
        use.expect('%s: %s' % (name, words), words in use.text('#verdict .queue'))
    use.expect('judged with a queue', use.judge('#verdict .queue button') == 'Refused')
    use.expect('another line is refused', use.text('#verdict .first') == 'refused a 9 line 11: 19 LinkState')
    use.expect('what a queue allows is not asked again', not use.browser.value('document.querySelector("#verdict .queue")'))
    use.expect('why it is refused with a queue', use.browser.value('Boolean(document.querySelector("#verdict .seen"))'))
    use.expect('who is accused with a queue', 'Accused' in use.text('#verdict dl'))


def strange_files(use):
    """What is not what it seems is told so, and mended where it can be."""
    for name, content, words, after in STRANGE:
        use.clear()
        said = use.choose('a', use.file(name, content))
        use.expect('%s: %s' % (name, said), words in said and name in said)
        use.expect('%s has a button' % name, bool(after) == use.browser.value('Boolean(document.querySelector("#note button"))'))
        if after:
            use.browser.value('globalThis.shown = null; document.querySelector("#note").hidden = true')
            use.click('#note button')
            said = use.said()
            use.expect('%s, mended: %s' % (name, said), after in said)
    use.clear()
    large = use.file('large.a', b'')
    os.truncate(large, 2 << 30)
    said = use.choose('a', large)
    use.expect('2 GB: ' + said, '2.1 GB is more than this page can hold' in said)
    for content, words in FAULTY:
        use.clear()
        use.choose('a', use.file('faulty.a', content))
        use.browser.until('document.querySelector("#panel h3")')
        use.expect(words, words.lower() in use.text('#panel').lower())


def tabs_and_keys(use):
    """Every tab shows something, also by keys; each control has a name."""
    use.choose('a', example('wrong_delivery.a'), example('wrong_delivery.b'))
    count = use.browser.value('document.querySelectorAll(".tabs button").length')
    use.expect('seven tabs', count == 7)
    use.browser.value('document.querySelector(".tabs button").focus()')
    for number in range(1, count):
        use.browser.send('Input.dispatchKeyEvent', type='keyDown', key='ArrowRight', code='ArrowRight', windowsVirtualKeyCode=39)
        chosen = '(it => it.id === "tab-%d" && it.getAttribute("aria-selected") === "true" && it.textContent)(document.activeElement)'
        name = use.browser.until(chosen % number)
        use.browser.value('new Promise(later => setTimeout(later, 150))')
        shown = use.browser.value('(it => it.textContent.length + (it.firstChild.shadowRoot ? it.firstChild.shadowRoot.textContent.length : 0))'
                                  '(document.querySelector("#panel"))')
        use.expect('tab %s is not empty' % name, shown > 40)
        use.expect('tab %s can be shown' % name, 'could not be shown' not in use.text('#panel'))
        if name == 'Rules met':
            heads = use.browser.value('[...document.querySelectorAll("#panel thead th")].map(it => it.textContent)')
            use.expect('its columns', heads == ['rule', 'a', 'b'])
    named = ('button', 'tab', 'radio', 'link', 'tabpanel', 'img')
    nodes = use.browser.send('Accessibility.getFullAXTree')['nodes']
    found = [node for node in nodes if node.get('role', {}).get('value') in named]
    use.expect('controls', len(found) > 10)
    for node in found:
        use.expect('a %s has a name' % node['role']['value'], node.get('name', {}).get('value'))


def by_keys_alone(use):
    """Every control is reached by the Tab key, in the order of the page, and an example is judged and read by keys."""
    use.browser.open('about:blank')
    use.browser.open('file://' + use.page)
    use.browser.value('ddcap.ready')
    name = '(it => it.id || (it.closest("[id]") || it).id + " " + it.tagName)(document.activeElement)'
    met = []
    while len(met) < 20 and (not met or met[-1] != 'examples BUTTON'):
        use.browser.key('Tab', 9)
        met.append(use.browser.value(name))
    use.expect('the controls in their order: %s' % met, met == ['end-a INPUT', 'end-b INPUT', 'queued', 'examples BUTTON'])
    use.browser.value('globalThis.shown = null')
    use.browser.key('Enter', 13, text='\r')
    use.expect('an example by Enter', use.said() == 'Refused')
    use.expect('the focus is at the answer', use.browser.value('document.activeElement.id') == 'verdict')
    use.browser.value('globalThis.shown = null; document.querySelector("#queued").focus()')
    use.browser.key('ArrowDown', 40)
    use.expect('another way to judge by an arrow', use.said() == 'Refused' and use.browser.value('document.activeElement.id') == 'plain')
    met = []
    while len(met) < 9 and (not met or met[-1] != 'panel'):
        use.browser.key('Tab', 9)
        met.append(use.browser.value(name))
    use.expect('from the verdict to what explains it: %s' % met, met[-2:] == ['tab-0', 'panel'])


# What a browser may lack, as a script that takes it away, and what is said then.
LACKING = [
    ('delete globalThis.WebAssembly', 'This browser has no WebAssembly'),
    ('delete globalThis.Worker', 'This browser has no workers'),
    ('delete globalThis.DecompressionStream', 'This browser has no DecompressionStream'),
    ('WebAssembly.compile = async () => { throw new Error("no SIMD"); }', 'could not be started: no SIMD'),
]


def lacking(use):
    """A browser without what the page needs says so when it is opened, and again when something is dropped."""
    for script, words in LACKING:
        added = use.browser.send('Page.addScriptToEvaluateOnNewDocument', source=script)['identifier']
        use.browser.open('about:blank')
        use.browser.open('file://' + use.page)
        use.expect('%s: at once' % script, words in use.said())
        use.expect('%s: when a pair is dropped' % script, words in use.drop(example('wrong_response.a'), example('wrong_response.b')))
        use.expect('%s: what to do' % script, 'A browser of 2023 or later' in use.text('#note'))
        use.browser.send('Page.removeScriptToEvaluateOnNewDocument', identifier=added)
    with open(use.page, 'rb') as page:
        unread = use.file('unread.html', page.read().replace(b'<script type="module">', b'<script type="module">not to be read'))
    use.browser.open('file://' + unread)
    note = use.browser.until('!document.querySelector("#note").hidden && document.querySelector("#note").textContent')
    use.expect('a browser that can not read the script: ' + note, 'too old' in note and 'A browser of 2023 or later' in note)
    use.browser.errors.clear()  # which that was


def opened(use):
    """The page from nothing: how soon it answers, and that it connects to nothing."""
    taken = []
    for _ in range(TRIES):  # the machine may be busy
        use.browser.open('about:blank')
        begun = time.time()
        use.browser.open('file://' + use.page)
        use.browser.drop('h1', example('wrong_response.a'), example('wrong_response.b'))
        use.expect('a dropped pair', use.said() == 'Refused')
        taken.append(time.time() - begun)
    busy = max(1, os.getloadavg()[0] / os.cpu_count())  # the browser has its share of the processors alone
    print('from opening the page to the answer to a dropped pair: %.2f s, with %.1f times as much to do as the processors can' % (min(taken), busy))
    use.expect('an answer within %d s, or longer on a busy machine' % SECONDS, min(taken) < SECONDS * busy)
    use.browser.open('about:blank')
    use.browser.open('file://' + use.page + '#wrong_response')
    use.expect('an example by its name', use.said() == 'Refused')
    use.expect('no connection', use.browser.value('fetch("data:text/plain,x").then(() => false, () => true)'))
    use.browser.errors.clear()  # which that was
    policy = use.browser.value('document.querySelector("meta[http-equiv]").content')
    use.expect('the policy', "default-src 'none'" in policy and 'unsafe-inline' not in policy and 'http' not in policy)


def expectations(browser, page, folder):
    """How many things were expected of the page, and those that did not hold."""
    use = Use(browser, page, folder)
    opened(use)
    for part in (several_drops, texts_that_do_not_pair, causes, queues, strange_files, tabs_and_keys, by_keys_alone, *LINE_PARTS, *PARTS, lacking):
        part(use)
    for error in browser.errors:
        use.expect('an error of the page: ' + error, False)
    return use.count, use.faults
