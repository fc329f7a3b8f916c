"""The rules of tools/lists/why/rules.txt, and the rows in which `ddcap why` prints a check with its rule."""
import os
import re
from functools import lru_cache

from tests.program import TOP

COLUMNS = 68  # of the words of a row, without what comes before them
INDENT = 11 * ' '


@lru_cache(None)
def rules():
    """Of each reason, by its number: the rule that is printed, and the page of its table."""
    with open(os.path.join(TOP, 'tools', 'lists', 'why', 'rules.txt')) as text:
        lines = [line.split(' | ') for line in text.read().splitlines() if line and not line.startswith('#')]
    return {int(number): tuple(words) for number, *words in lines}


def rows_of_check(check):
    """The rows that have the words of the line; the rule is in as many rows as it takes, and both pages are below each other."""
    words = ('seen', check['seen']), ('allowed', check['allowed']), ('rule', check['rule']), ('page', check['page']), ('', check['table'])
    return [row for key, text in words for row in wrapped('  %-8s ' % key, text)]


def wrapped(lead, words):
    """Rows of at most 79 columns that have these words: the first after `lead`, which has eleven columns."""
    rows = ['']
    for word in words.split(' '):
        if rows[-1] and len(rows[-1]) + 1 + len(word) > COLUMNS:
            rows.append(word)
        else:
            rows[-1] += ' ' * bool(rows[-1]) + word
    return [(INDENT if at else lead) + row for at, row in enumerate(rows)]


def faults_of_rules():
    """Whether each reason has a rule, and each page that an answer can name is in the documents."""
    yield None if list(rules()) == list(range(1, 28)) else 'tools/lists/why/rules.txt has the numbers %r' % list(rules())
    for page in sorted({table for _, table in rules().values()}):
        path, heading = page.split('#')
        with open(os.path.join(TOP, path)) as document:
            headings = re.findall(r'^#+ (.*)$', document.read(), re.MULTILINE)
        yield None if heading in [words.lower().replace(' ', '-') for words in headings] else 'no heading %s' % page
