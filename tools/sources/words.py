"""The words of the program by the rows of crates/command_words/src/table.rt, and how what follows each is spelled."""
import os
import re

TOP = os.path.dirname(os.path.dirname(os.path.dirname(os.path.realpath(__file__))))
TABLE = os.path.join(TOP, 'crates', 'command_words', 'src', 'table.rt')
ROW = re.compile(r'^    Word \{\n(.*?)^    \},$', re.MULTILINE | re.DOTALL)
PART = re.compile(r'\b(Needed|Optional|Several|Flag|Valued)\("(\w+)"\)')
LINE = re.compile(r'\busage:\s*"(.*?)\\n"')


class Word:
    """A row: the name of the word, its parts as kind and name, and the line that is told of its use or None."""

    def __init__(self, row):
        self.name = re.search(r'\bname: "(\w+)"', row)[1]
        self.parts = PART.findall(row)
        self.line = LINE.search(row) and LINE.search(row)[1]

    def options(self):
        return {'--' + name for kind, name in self.parts if kind in ('Flag', 'Valued')}

    def files(self):
        """What a page names behind the word: what it needs, and in brackets what may be left out."""
        return [{'Needed': '%s', 'Optional': '[%s]'}[kind] % name for kind, name in self.parts if kind in ('Needed', 'Optional')]

    def pattern(self, more):
        """What fits the word with all that may follow it, where files of more pairs end with these dots."""
        spelled = {'Flag': r'\[--%s]', 'Valued': r'\[--%s \S+]', 'Needed': '%s', 'Optional': r'\[%s]', 'Several': r'\[A B ' + re.escape(more) + ']'}
        return ' '.join([self.name] + [spelled[kind] % name if '%s' in spelled[kind] else spelled[kind] for kind, name in self.parts])


def words():
    with open(TABLE) as text:
        return [Word(row) for row in ROW.findall(text.read())]
