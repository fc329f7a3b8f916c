"""The links of two nodes as acts of words, each played on `machine_rows` beside the second reading of tools/reading/links.py. A part of
tools/tests/test_machines.

An act begins with the node that does it: `a open 1`, `a accept PARTNER LINK`, `a reject PARTNER LINK`, `a in LINK DATA`, `a up LINK DATA`,
`a close LINK`, `a sends MESSAGE`, `a sends-as SOURCE DESTINATION MESSAGE`, and what comes to it: `a comes PLACE`, the message at that place of those
that the other node sent, from 0 on, with its own tag; `a comes-as PLACE LINK PARTNER` with this one; `a gets LINK PARTNER MESSAGE` and
`a gets-as SOURCE DESTINATION LINK PARTNER MESSAGE`, one that was not sent. Numbers are hexadecimal, DATA are bytes, and `-` is no link."""
import copy

from reading.judging import NAMES, RULES
from reading.links import NO_TAG, Links, Tag
from reading.messages import gets, sends
from reading.packets import Packet, read_nsp
from reading.rows import Refused
from tests.machines.calls import digits, optional

NODES = {'a': 0x401, 'b': 0x402}

# The messages of NSP 4.0: the first byte, so many addresses, and what follows them. A CI says SEGSIZE 512 and a CC 2.
LAYOUTS = {
    'CI': ('180000', 1, '01020002'), 'CI-again': ('680000', 1, '01020002'), 'CC': ('28', 2, '01020200'), 'connect-ack': ('24', 1, ''),
    'DI': ('38', 2, '000000'), 'DC': ('48', 2, '2a00'), 'link-service': ('10', 2, ''), 'interrupt': ('30', 2, ''), 'other-ack': ('14', 2, ''),
    'no-operation': ('08', 0, ''), 'data-ack': ('04', 2, ''), 'first': ('20', 2, ''), 'middle': ('00', 2, ''), 'last': ('40', 2, ''),
    'whole': ('60', 2, ''),
}


def message_of(words):
    """The bytes of a message."""
    front, count, behind = LAYOUTS[words[0]]
    addresses = b''.join(int(word, 16).to_bytes(2, 'little') for word in words[1:1 + count])
    return bytes.fromhex(front) + addresses + bytes.fromhex(behind) + bytes.fromhex(''.join(words[1 + count:]))


def tag_of(words):
    return Tag(*[None if word == '-' else int(word, 16) for word in words])


class TwoNodes:
    """Both nodes, from their beginning on, for one row: each call is the program's, with the second reading's answer as the one that is wanted."""

    def __init__(self, calls, row):
        self.calls, self.row = calls, row
        self.readings = {'a': Links(RULES, NODES['a'], NODES['b']), 'b': Links(RULES, NODES['b'], NODES['a'])}
        self.sent = {'a': [], 'b': []}
        calls.call('new', 'made', row)

    def acts(self, text):
        """Acts one after another. The answer of the last."""
        for act in text.split('; '):
            node, *words = act.split()
            answer = self.act(node, words)
        return answer

    def act(self, node, words):
        """One act of this node."""
        verb, *words = words
        other = 'b' if node == 'a' else 'a'
        if verb == 'sends':
            return self.sends(node, (NODES[node], NODES[other]), message_of(words))
        if verb == 'sends-as':
            return self.sends(node, tuple(int(word, 16) for word in words[:2]), message_of(words[2:]))
        if verb in ('comes', 'comes-as'):
            message, tag = self.sent[other][int(words[0], 16)]
            return self.gets(node, (NODES[other], NODES[node]), tag_of(words[1:]) if verb == 'comes-as' else tag, message)
        if verb == 'gets':
            return self.gets(node, (NODES[other], NODES[node]), tag_of(words[:2]), message_of(words[2:]))
        if verb == 'gets-as':
            return self.gets(node, tuple(int(word, 16) for word in words[:2]), tag_of(words[2:4]), message_of(words[4:]))
        count = 2 if verb in ('accept', 'reject') else 1
        data = [bytes.fromhex(''.join(words[count:]))] if verb in ('in', 'up') else []
        return self.user(node, verb, [int(word, 16) for word in words[:count]] + data)

    def user(self, node, verb, words):
        """The user of the node does this: numbers, and after them the data of `in` and `up`."""
        spelled = [digits(word) if isinstance(word, bytes) else str(word) for word in words]
        return self.made(' '.join([node, verb] + spelled), lambda: self.readings[node].user([verb] + spelled))

    def sends(self, node, nodes, message):
        """The node sends the message, which may come to the other one then."""
        source, destination = nodes
        packet = Packet(2, False, destination, source, 0, message)
        answer = self.made('%s sent %d %d %s' % (node, source, destination, digits(message)),
                           lambda: sends(self.readings[node], packet, read_nsp(message)))
        if isinstance(answer, Tag):
            self.sent[node].append((message, answer))
        return answer

    def gets(self, node, nodes, tag, message):
        """The message comes to the node."""
        source, destination = nodes
        packet = Packet(2, False, destination, source, 0, message)
        words = [node, 'arrived', str(source), str(destination)] + ['-' if link is None else str(link) for link in tag]
        return self.made(' '.join(words + [digits(message)]), lambda: gets(self.readings[node], packet, read_nsp(message), tag) and None)

    def made(self, line, reading):
        """The answer of the second reading: `made`, a tag, or the name of a refusal; the same is wanted of the program."""
        try:
            answer = reading() or 'made'
            wanted = 'tag %s %s' % tuple(map(optional, answer)) if isinstance(answer, Tag) else answer
        except Refused as refusal:
            answer = wanted = NAMES[refusal.reason - 1]
        self.calls.call(line, wanted, self.row)
        return answer


def play_row(calls, line, lists, questions):
    """Plays a row of tools/lists/machines.txt. A ValueError where the second reading has another answer than the row."""
    name, before, last, wanted = line.split(' | ')
    nodes = TwoNodes(calls, name)
    for act in before.split('; '):
        for part in lists.get(act, [act]):
            if part and is_refused(nodes.acts(part)):
                raise ValueError('%s: %s is refused' % (name, part))
    node = wanted.removeprefix('nothing at ') if wanted.startswith('nothing at ') else last.split()[0]
    reading = copy.deepcopy(nodes.readings[node], {id(RULES): RULES})
    answer = nodes.acts(last)
    if wanted.startswith('nothing at '):
        if is_refused(answer):
            raise ValueError('%s: %s is refused' % (name, last))
        nodes.readings[node] = reading
    elif not is_answer(wanted, answer):
        raise ValueError('%s: the second reading answers %s' % (name, answer))
    if wanted.startswith('nothing at ') or is_refused(answer):
        for question in questions:
            nodes.act(node, question.split())


def is_refused(answer):
    return answer in NAMES


def is_answer(wanted, answer):
    """Whether an answer is the one that a row wants."""
    if wanted.startswith('tag '):
        return answer == tag_of(wanted.split()[1:])
    return answer == wanted or wanted == 'made' and isinstance(answer, Tag)


def two_links_in_run(calls, row):
    """Both nodes, whose links 1 of a and 2 of b are in RUN."""
    nodes = TwoNodes(calls, row)
    nodes.acts('a open 1; a sends CI 1; b comes 0; b accept 1 2; b sends CC 1 2; a comes 0; a sends data-ack 2 1 00 80; b comes 1')
    return nodes


PAIRED = NO_TAG._replace(link=0, partner=0)
