"""What tools/tests/test_bugs knows of a bug, and of a node that does nothing wrong and is refused. Each is a small node that does one thing in
another way, and is entered with `bug` or `no_bug`."""
from collections import namedtuple

# The node, the reason, what docs/REASONS.md says of it, the session in which it shows, and whether it shows at the other end.
Bug = namedtuple('Bug', 'node reason words session at_peer')
BUGS, NO_BUGS = [], []


def bug(reason, words, session, at_peer=False):
    def entered(node):
        BUGS.append(Bug(node, reason, words, session, at_peer))
        return node
    return entered


def no_bug(reason, words, session):
    def entered(node):
        NO_BUGS.append(Bug(node, reason, words, session, False))
        return node
    return entered
