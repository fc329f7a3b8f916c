"""What the tests of `--all` share: a run of the program, texts in files, what the second reading answers, and what is printed line by line. A part of
tools/tests/test_all."""
import os
import re
from collections import namedtuple

from reading.all import end_listing, pair_listing
from reading.groups import FROM_HERE, OF_LINKS
from reading.texts import Text, as_read

MOST_LINES = 700  # of captures whose rows are drawn by the second reading
REFUSED = re.compile(r'(else )?refused ([ab]) (\d+) line \d+: (\d+) (\w+)( by the other end)?')

# What is told at once: a refusal, what is not asked from here, the last answer with its counts, or that there are more.
Told = namedtuple('Told', 'text refusal')


def written(folder, texts):
    """The paths of these texts in files of this folder."""
    paths = [os.path.join(folder, letter) for letter in 'ab'[:len(texts)]]
    for path, text in zip(paths, texts):
        with open(path, 'w') as capture:
            capture.write(text)
    return paths


def are_short(texts):
    """Whether the second reading draws these texts in a short time."""
    return all(text.count('\n') < MOST_LINES for text in texts)


def ways_of(words):
    return [word for word in words if word in ('--line', '--queued')]


def texts_read(texts):
    return [as_read(Text(text, letter)) for letter, text in zip('ab', texts)]


def listing_of(words, texts, turn=None):
    """The list of the second reading for these words."""
    listing, read = pair_listing if words[0] == 'check' else end_listing, texts_read(texts)
    return listing(*read, '--line' in words, '--queued' in words, turn)


def goes_on(printed):
    """Whether `check` or `alone` is refused for a reason for which something is left out."""
    refused = REFUSED.fullmatch(printed.partition('\n')[0])
    return refused is not None and (int(refused[4]) in FROM_HERE or int(refused[4]) in OF_LINKS)


def told_in(printed):
    """What is told by a list, in order. The counts of an answer belong to it."""
    told = []
    for line in printed.splitlines():
        if re.match('[ab] records ', line):
            told[-1] = Told(told[-1].text + '\n' + line, None)
        else:
            told.append(Told(line, REFUSED.fullmatch(line)))
    return told
