"""Cases for what answers as the program does, the page and the library: words over texts, with what the program prints to both streams, its status,
and the texts that it writes. They are made of the lists in tools/lists/pairs, of tools/lists/alone.txt and tools/lists/rows.txt, of the captures in
tools/lists/why, of the wire texts in tools/lists/tap, of examples/, and of what is asked in vain."""
import glob
import os
import random
import tempfile
from collections import namedtuple
from concurrent.futures import ThreadPoolExecutor

from lists.pair_lists import lines_below
from lists.pairs import capture_of
from lists.rows import HEAD, rows_of
from tests.program import SEED, TOP, started

Case = namedtuple('Case', 'name words texts status out err made')
# The lists, with what `check` is asked besides.
LISTS = (('station.txt', []), ('links.txt', []), ('worked.txt', []), ('line.txt', ['--line']),
         ('queues.txt', ['--queued']), ('worked_queues.txt', ['--queued']))
# What else is asked of some of the pairs, and of their sides a.
OF_PAIRS = [words.split() for words in (
    'check --json a b', 'why a b', 'why --json a b', 'cover a b', 'draw a b', 'draw a b --svg svg',
    'check --line a b', 'why --line a b', 'cover --line --json a b',
    'check --queued a b', 'why --queued a b', 'why --queued --json a b', 'cover --queued a b', 'draw --queued a b',
    'check --line --queued a b', 'convert 2 a made')]
OF_ONE_END = [words.split() for words in (
    'alone a', 'alone --line --json a', 'alone --queued a', 'alone --json --queued a', 'why a', 'why --line a', 'why --queued a', 'show a')]


def bytes_of(path):
    with open(path, 'rb') as file:
        return file.read()


def pairs_of(name, most):
    """At most so many pairs of a list, drawn by chance, the same each time for one seed: their names, and both texts."""
    below = lines_below(name)
    lines = [line for heading in below for line in below[heading] if line.pair]
    random.Random(name + SEED).shuffle(lines)
    return [(line.place, [capture_of(side, records).encode() for side, records in zip('ab', line.pair)]) for line in lines[:most]]


def asked_of_pairs(most):
    """What is asked of the pairs: `check` of each, all other words of each tenth."""
    for name, more in LISTS:
        for number, (place, (a, b)) in enumerate(pairs_of(name, most)):
            yield place, ['check', *more, 'a', 'b'], {'a': a, 'b': b}
            if number % 10 == 0:
                yield from ((place, words, {'a': a, 'b': b}) for words in OF_PAIRS)
                yield from ((place, words, {'a': a}) for words in OF_ONE_END)
    for path in sorted(glob.glob(os.path.join(TOP, 'tools', 'lists', 'why', '*.a')))[:most]:
        yield from ((path, words, {'a': bytes_of(path), 'b': bytes_of(path[:-1] + 'b')}) for words in OF_PAIRS[:3])


def asked_of_ends(most):
    """What is asked of the captures of one end."""
    with open(os.path.join(TOP, 'tools', 'lists', 'alone.txt')) as lines:
        rows = [line.rstrip('\n').split(' | ') for line in lines if not line.startswith('#')]
    for name, records, _ in [row for row in rows if len(row) == 3][:most]:
        yield name, ['alone', 'a'], {'a': capture_of('a', records).encode()}


def asked_of_scripts(most):
    """What is asked of the player's rows, of examples/ and of the wire texts."""
    set_ups, rows = rows_of()
    rows = list(set_ups.values()) + rows
    random.Random('rows' + SEED).shuffle(rows)
    for row in rows[:most]:
        yield row.name, ['play', 'script', 'a', 'b'], {'script': (HEAD + ''.join(step + '\n' for step in row.steps())).encode()}
    for path in sorted(glob.glob(os.path.join(TOP, 'examples', '*')) + glob.glob(os.path.join(TOP, 'tools', 'lists', 'tap', '*.wire'))[:most]):
        ending = os.path.splitext(path)[1]
        if ending == '.script':
            yield path, ['play', 'script', 'a', 'b'], {'script': bytes_of(path)}
        elif ending == '.wire':
            yield path, ['tap', 'wire', 'a', 'b'], {'wire': bytes_of(path)}
            yield path, ['tap', '--line', 'wire', 'a', 'b'], {'wire': bytes_of(path)}
        elif ending in ('.a', '.b'):
            yield path, ['alone', 'a'], {'a': bytes_of(path)}


def asked_of_bad_input():
    """What is asked in vain."""
    good = b'ddcap 1 1.1 1.2\nu start\n'
    for words in [], ['help'], ['help', 'check'], ['explain', '8'], ['explain', '99'], ['nonsense'], ['check', 'a']:
        yield 'words', words, {}
    yield 'no such text', ['check', 'a', 'b'], {'a': good}
    both = {'a': good, 'b': good}
    for words in (['convert', '1', 'a', 'a'], ['draw', 'a', 'b', '--svg', 'b'], ['tap', 'a', 'a', 'b'], ['tap', 'a', 'b', 'a'], ['tap', 'a', 'c', 'c'],
                  ['play', 'a', 'b', 'a'], ['play', 'a', 'a', 'b'], ['play', 'a', 'b', 'b']):
        yield 'one text twice', words, both
    for text in b'', b'\n', good[:-1], good.replace(b'\n', b'\r\n'), good + b's 0506C00000017595\n', good + b'x' * 140000, bytes(range(256)):
        yield 'a faulty text', ['check', 'a', 'b'], {'a': text, 'b': good}
        yield 'a faulty text', ['check', '--json', 'a', 'b'], {'a': text, 'b': good}
        yield 'a faulty text', ['why', 'b', 'a'], {'a': text, 'b': good}
        yield 'a faulty text', ['tap', 'wire', 'a', 'b'], {'wire': text}


def answered(asked):
    """The case of what is asked, as the program answers it in a folder of its own."""
    name, words, texts = asked
    with tempfile.TemporaryDirectory() as folder:
        for text, content in texts.items():
            with open(os.path.join(folder, text), 'wb') as file:
                file.write(content)
        out, err, status = started(words, cwd=folder)
        made = {}
        for text in sorted(os.listdir(folder)):
            with open(os.path.join(folder, text), 'rb') as file:
                content = file.read()
            if texts.get(text) != content:
                made[text] = content
    return Case(name, words, texts, status, out, err, made)


def all_cases(most):
    """The cases of at most so many pairs of each list, and rows."""
    asked = [*asked_of_pairs(most), *asked_of_ends(most), *asked_of_scripts(most), *asked_of_bad_input()]
    with ThreadPoolExecutor() as pool:
        return list(pool.map(answered, asked))
