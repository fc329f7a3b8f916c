"""What passed in a played pair, as tools/wire_of makes it of both captures. That is called and not started, since Python takes longer to start than
it does. tools/tests/test_relay starts it."""
import os
from importlib.machinery import SourceFileLoader
from importlib.util import module_from_spec, spec_from_loader

from tests.program import TOP

LOADER = SourceFileLoader('wire_of', os.path.join(TOP, 'tools', 'wire_of'))
wire_of = module_from_spec(spec_from_loader(LOADER.name, LOADER))
LOADER.exec_module(wire_of)


def wire_text(a, b):
    """The text of what passed, of captures by their paths; nothing where they are faulty."""
    try:
        sides = wire_of.Side(a), wire_of.Side(b)
        pieces = wire_of.pieces(wire_of.passed(*sides), 'whole')
    except wire_of.Failure:
        return ''
    return 'ddwire 1 %s %s\n' % sides[0].nodes + ''.join('%s %s\n' % piece for piece in pieces if piece[1])
