"""The page while it works, and where its answer is: rows of what has to be seen then. tools/tests/page_use calls them."""
import os

from captures import long_segments
from tests.program import TOP

RECORDS = 20_000  # of each side of a long pair: two texts of over 20 MB
FOLLOW = 3_000  # lines after what is refused

# What its worker does at each read, and what it does in the test: so that judging takes over half a second on any machine.
READS, READS_SLOWLY = 'read += count;', 'read += count; if (words[0] === "check") for (const end = Date.now() + 4; Date.now() < end;);'

# In the page: large files are read slowly.
SLOW_READING = '''(() => {
  const read = Blob.prototype.arrayBuffer;
  Blob.prototype.arrayBuffer = async function () {
    if (this.size > 1e6) await new Promise(later => setTimeout(later, 2000));
    return read.call(this);
  };
})()'''

# In the page: keeps what it says while it works, and whether a verdict is to be seen then.
WATCH = '''(() => {
  globalThis.seen = [];
  const look = () => {
    if (document.querySelector('#work').hidden) return;
    const words = document.querySelector('#work span').textContent, title = document.querySelector('#verdict h2').textContent;
    seen.push([words, document.querySelector('#result').hidden ? '' : title]);
  };
  globalThis.watched?.disconnect();
  globalThis.watched = new MutationObserver(look);
  watched.observe(document.querySelector('#work'), {attributes: true, childList: true, subtree: true, characterData: true});
})()'''
TOLD = 'likely at fault: line '
FOCUSED = 'document.activeElement.id'
IS_IN_SIGHT = '(it => it.top >= 0 && it.bottom <= innerHeight && it.left >= 0 && it.right <= innerWidth)(%s.getBoundingClientRect())'
STOP = 'document.querySelector("#stop")'


def long_pair(folder):
    """A long pair with one receipt near the end of b that is `r` in place of `k`: the paths of a and b."""
    paths = [os.path.join(folder, name) for name in ('long.a', 'bad.b')]  # by their names in the other order
    with open(paths[0], 'w') as a, open(paths[1], 'w') as b:
        long_segments(a, b, RECORDS)
    with open(paths[1], 'rb') as file:
        text = file.read()
    at = len(text)
    for _ in range(FOLLOW):
        at = text.rindex(b'\n', 0, at)
    at = text.rindex(b'\nk ', 0, at)
    with open(paths[1], 'wb') as file:
        file.write(text[:at] + b'\nr ' + text[at + 3:])
    return paths


def working(use):
    """A long pair: how far it is, the verdict while small changes are tried, and what Stop does, wherever it is pressed."""
    pair, browser = long_pair(use.folder), use.browser
    with open(use.page) as page:
        slow = use.file('slow.html', page.read().replace(READS, READS_SLOWLY).encode())
    browser.open('file://' + slow)
    browser.value(WATCH)
    use.expect('a long pair', use.drop(*pair) == 'Refused')
    seen = browser.value('seen')
    counts = [words for words, title in seen if words.startswith('judging, ') and words.endswith(' MB') and ' of ' in words and not title]
    use.expect('how far it is: %s' % seen[:9], any(0 < int(words.split()[1]) < int(words.split()[3]) for words in counts))
    use.expect('the verdict before small changes', any(words.startswith('trying small changes, ') and title == 'Refused' for words, title in seen))
    use.expect('what they tell', TOLD in use.text('#verdict dl') and 'being tried' not in use.text('#verdict dl'))
    use.expect('nothing is said to be done by then', browser.value('document.querySelector("#work").hidden'))
    browser.value('globalThis.shown = null')
    use.click('#plain')
    browser.until('!document.querySelector("#work").hidden && /^trying/.test(document.querySelector("#work span").textContent)')
    use.expect('the button is in sight', browser.value(IS_IN_SIGHT % STOP))
    use.expect('the cause is there', bool(use.text('#verdict .seen')))
    browser.value(STOP + '.focus()')
    browser.key('Enter', 13, text='\r')
    use.expect('the verdict stays', use.said() == 'Refused')
    use.expect('what was stopped', 'were not all tried: that was stopped' in use.text('#verdict dl'))
    use.expect('the focus is at the answer', browser.value(FOCUSED) == 'verdict')
    browser.value('globalThis.shown = null')
    use.click('#verdict dl button')
    use.expect('tried again', use.said() == 'Refused' and 'stopped' not in use.text('#verdict dl') and TOLD in use.text('#verdict dl'))
    browser.value('globalThis.shown = null')
    use.click('#queued')
    browser.until('!document.querySelector("#work").hidden && /^judging/.test(document.querySelector("#work span").textContent)')
    use.click('#stop')
    use.expect('judging is stopped', 'Judging was stopped.' in use.said() and browser.value('document.querySelector("#result").hidden'))
    use.expect('and can be begun again', use.judge('#note button') == 'Refused')


def drops_while_working(use):
    """A drop ends what is judged; of two drops the last one counts, whichever is read first; Stop answers at once, while a file is read too."""
    browser, pair = use.browser, long_pair(use.folder)
    with open(use.page) as page:
        slow = use.file('slow.html', page.read().replace(READS, READS_SLOWLY).encode())
    browser.open('file://' + slow)
    browser.value('ddcap.ready')
    browser.drop('h1', *pair)
    browser.until('!document.querySelector("#work").hidden && /^judging/.test(document.querySelector("#work span").textContent)')
    use.expect('another drop', use.drop(os.path.join(TOP, 'examples', 'two_way_links.wire')) == 'Accepted')
    use.expect('takes the place of the first', 'two_way_links.wire' in use.text('#end-a') and browser.value('document.querySelector("#work").hidden'))
    browser.value(SLOW_READING)
    browser.drop('h1', *pair)
    use.expect('one that is read sooner', use.drop(use.file('z.a', b'ddcap 1 1.1 1.2\nu start\n')) == 'Passed')
    browser.value('new Promise(later => setTimeout(later, 2500))')
    use.expect('stays', 'z.a' in use.text('#end-a') and use.text('#verdict h2') == 'Passed')
    browser.drop('h1', *pair)
    browser.until('!document.querySelector("#work").hidden && /^reading/.test(document.querySelector("#work span").textContent)')
    browser.value('globalThis.pressed = performance.now()')
    use.click('#stop')
    took = browser.value('document.querySelector("#work").hidden ? performance.now() - pressed : 1e9')
    use.expect('Stop answers at once: %d ms' % took, took < 500 and 'Reading was stopped.' in use.text('#note'))
    use.expect('and what was there stays', 'z.a' in use.text('#end-a'))


def sides_by_name(use):
    """Files keep the side that their names tell, wherever they are dropped together or one after another."""
    good, other = b'ddcap 1 1.1 1.2\nu start\ns 0506c00000017595\n', b'ddcap 1 1.2 1.1\nu start\nr 0 0506c00000017595\n'
    use.clear()
    use.expect('a pair', use.drop(use.file('z.a', good), use.file('c.b', other)) == 'Accepted')
    use.expect('by their names', 'z.a' in use.text('#end-a') and 'c.b' in use.text('#end-b'))
    use.clear()
    use.expect('b alone', use.drop(use.file('c.b', other)) == 'Passed' and 'c.b' in use.text('#end-b .what'))
    use.expect('then a', use.drop(use.file('z.A', good)) == 'Accepted' and 'z.A' in use.text('#end-a .what'))
    use.clear()
    use.expect('one without a side', use.drop(use.file('first', other)) == 'Passed' and 'first' in use.text('#end-a .what'))
    use.expect('makes room', use.drop(use.file('z.a', good)) == 'Accepted' and 'first' in use.text('#end-b .what'))


def titles_and_focus(use):
    """Queues come first; titles have the names of the files; the focus goes to the answer, and from there to what explains it."""
    use.browser.open('about:blank')
    use.browser.open('file://' + use.page)
    use.browser.value('ddcap.ready')
    use.expect('nodes with queues are the first choice', use.browser.value('document.querySelector("[name=choice]").checked')
               and use.browser.value('document.querySelector("[name=choice]").id') == 'queued')
    pair = [os.path.join(TOP, 'examples', 'wrong_response.' + side) for side in 'ab']
    use.expect('a pair', use.drop(*pair) == 'Refused')
    use.expect('the title', use.browser.value('document.title') == 'Refused: wrong_response.a, wrong_response.b - ddcap')
    use.expect('the focus', use.browser.value(FOCUSED) == 'verdict')
    use.browser.key('Tab', 9)
    use.browser.key('Tab', 9)
    use.browser.key('Tab', 9)
    use.expect('what follows', use.browser.value(FOCUSED) == 'tab-0')
    use.click('#tab-1')
    drawn = use.browser.until('document.querySelector("#panel").firstChild?.shadowRoot?.querySelector("svg")?.textContent')
    use.expect('the title of the picture', 'wrong_response.a  wrong_response.b' in drawn)
    use.choose('a', use.file('some.png', b'\x89PNG\r\n\x1a\n'))
    use.expect('the focus is at what is wrong', use.browser.value(FOCUSED) == 'note')
    use.clear()
    use.expect('or where to begin', use.browser.value('document.activeElement.closest(".end").id') == 'end-a')
    use.expect('the first title', use.browser.value('document.title').startswith('ddcap: '))


PARTS = [sides_by_name, titles_and_focus, working, drops_while_working]
