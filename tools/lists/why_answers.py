#!/usr/bin/env python3
"""The stored answers of `ddcap why`, in tools/lists/why/answers.txt: each kind of row that it prints of a record, of a check, of one end, of who is
accused and of the recorder. Run as a program it writes the answers of the list anew, for the same captures, so that a change of words shows as a
difference."""
import os
import sys
import tempfile
from collections import namedtuple
from functools import cache

sys.dont_write_bytecode = True  # leaves no file beside the modules
sys.path.insert(0, os.path.dirname(os.path.dirname(os.path.realpath(__file__))))
from lists.pair_lists import lines_below
from lists.pairs import capture_of
from tests.program import TOP, run

WHY = os.path.join(TOP, 'tools', 'lists', 'why')
LIST = os.path.join(WHY, 'answers.txt')
MOST_COLUMNS = 80
LISTS = 'station.txt', 'links.txt', 'worked.txt'

# of which captures, in which order (`a b`, or `b` for one end alone), and the rows that are kept of the answer
Stored = namedtuple('Stored', 'captures order rows')


def text_of(path):
    with open(path) as text:
        return text.read()


def stored():
    """The entries of the list."""
    blocks = text_of(LIST).split('\n\n')
    for heading, *rows in (block.splitlines() for block in blocks if not block.startswith('#')):
        *captures, order = heading.split(' | ')
        yield Stored(' | '.join(captures), order.split(' '), rows)


@cache
def pairs_by_name():
    """Each pair of the lists by its list, the heading that it is below and its turns; and those of tools/lists/why by their names."""
    pairs = {}
    for name in LISTS:
        for heading, lines in lines_below(name).items():
            for line in (line for line in lines if line.pair):
                pairs[' | '.join([name, heading, ', '.join(line.turns)])] = [capture_of(*side) for side in zip('ab', line.pair)]
    for name in sorted(path[:-2] for path in os.listdir(WHY) if path.endswith('.a')):
        pairs['why | ' + name] = [text_of(os.path.join(WHY, '%s.%s' % (name, letter))) for letter in 'ab']
    return pairs


def answer_to(texts, words):
    """What the program prints of captures that are named a and b."""
    with tempfile.TemporaryDirectory() as folder:
        for letter, text in zip('ab', texts):
            with open(os.path.join(folder, letter), 'w') as capture:
                capture.write(text)
        return run(*words, cwd=folder)[0]


def rows_of(answer, order):
    """The rows that are kept: not those of the rule and its pages, which tools/lists/why/rules.txt has; not the ladder; and of a pair not the
    variables of both ends, which the second reading has."""
    parts = answer.split('\n\n')
    check = parts[2].splitlines() if len(parts) > 2 else []
    rule = next((at for at, row in enumerate(check) if row.startswith('  rule')), len(check))
    kept = [parts[0].splitlines(), parts[1].splitlines(), check[:rule], parts[3].splitlines() if len(order) == 1 else [], parts[5].splitlines()]
    return [row for part in kept for row in part]


def rows_now(entry, pairs):
    return rows_of(answer_to(pairs[entry.captures], ['why', *entry.order]), entry.order)


def faults_of_stored(entry):
    """Whether the answer has these rows today."""
    rows = rows_now(entry, pairs_by_name())
    yield None if rows == entry.rows else '%r, where %r is stored' % (rows, entry.rows)
    wide = [row for row in rows if len(row) > MOST_COLUMNS and ' ' in row.strip()]
    yield 'rows that are too wide: %r' % wide if wide else None


def main():
    head, pairs = text_of(LIST).split('\n\n')[0], pairs_by_name()
    blocks = ['\n'.join([' | '.join([entry.captures, ' '.join(entry.order)])] + rows_now(entry, pairs)) for entry in stored()]
    with open(LIST, 'w') as answers:
        answers.write('\n\n'.join([head] + blocks) + '\n')


if __name__ == '__main__':
    main()
