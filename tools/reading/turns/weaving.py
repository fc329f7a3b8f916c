"""Puts the turns into the reading: whoever imports this before any module of it has a reading whose rules ask in each place whether they are turned.

The edits of a module are in the file of its name that ends with `.turns`. An edit begins with a line `@ NAME`, the function, method or class that
it is in, or `@` alone. Of its other lines those with `-` are what the module has, those with `+` what comes in their place, and the rest tells where.
What it has of the module has to be there just once: whoever changes a rule changes its turns."""
import ast
import os
import sys
from importlib.machinery import PathFinder, SourceFileLoader

HERE = os.path.dirname(os.path.realpath(__file__))


def edits_of(text):
    """The edits of a file: of each its name, the lines that are there, and those in their place."""
    edits = []
    for line in text.splitlines():
        if line.startswith('@'):
            edits.append((line[1:].strip(), [], []))
        elif not line.startswith('#'):
            name, old, new = edits[-1]
            old += [line[1:]] * (line[:1] != '+')
            new += [line[1:]] * (line[:1] != '-')
    return edits


def regions_of(text):
    """Where each function, method and class is, by its name: its first line, counted from 0, and that behind it."""
    found = {'': (0, len(text.splitlines()))}

    def look(nodes, above):
        for node in nodes:
            if isinstance(node, (ast.FunctionDef, ast.ClassDef)):
                found[above + node.name] = node.lineno - 1, node.end_lineno
                look(node.body, above + node.name + '.')

    look(ast.parse(text).body, '')
    return found


def woven(text, edits):
    """The text of a module with these edits; a ValueError where one has no place, or several."""
    lines, regions, placed = text.splitlines(), regions_of(text), []
    for name, old, new in edits:
        begin, end = regions.get(name, (0, 0))
        places = [at for at in range(begin, end - len(old) + 1) if lines[at:at + len(old)] == old]
        if len(places) != 1:
            raise ValueError('%s has %d times: %s' % (name, len(places), '\n'.join(old)))
        placed.append((places[0], len(old), new))
    for at, count, new in sorted(placed, key=lambda edit: edit[0], reverse=True):
        lines[at:at + count] = new
    return '\n'.join(lines) + '\n'


class Woven(SourceFileLoader):
    """Loads a module with its edits."""

    def get_code(self, fullname):
        with open(self.path) as module, open(file_of(fullname)) as edits:
            return compile(woven(module.read(), edits_of(edits.read())), self.path, 'exec')


class Finder:
    """Finds those modules that have edits."""

    @staticmethod
    def find_spec(fullname, path, target=None):
        if not fullname.startswith('reading.') or not os.path.exists(file_of(fullname)):
            return None
        spec = PathFinder.find_spec(fullname, path, target)
        spec.loader = Woven(fullname, spec.origin)
        return spec


def file_of(module):
    """The file with the edits of a module."""
    return os.path.join(HERE, *module.split('.')[1:]) + '.turns'


early = sorted(name for name in sys.modules if name.startswith('reading.') and os.path.exists(file_of(name)))
if early:
    raise ImportError('imported before their turns: ' + ', '.join(early))
sys.meta_path.insert(0, Finder)
