"""The pairs of tools/lists/all.txt, each a conversation of both sides, item by item: `texts_of(items)` are both captures; and what is printed where
an answer of that list is right. A part of tools/tests/test_all."""
import os
import re
import sys

from captures import ack_of
from lists.pair_units import FROM_A, FROM_B, data_of, packet_of
from lists.pairs import NEAR, SIDES, lines_of
from reading.groups import FROM_HERE, OTHER
from reading.judging import NAMES
from tests.program import TOP

LIST = 'tools/lists/all.txt'
START = 'a = u start; b = u start; a = s STRT; b = r 0 STRT; b = s STACK; a = r 0 STACK; a = s ACK0; b = r 1 ACK0'
WORDS = {
    'linked': 'a open 1; a > CI1; b accept 1 2; b > CC2>1; a > LS1>2',
    'linked too': 'a open 3; a > CI3; b accept 3 4; b > CC4>3; a > LS3>4',
    'opened again': 'a close 1; a > DI1>2; b > DC2>1; a open 1; a > CI1; b accept 1 3; b > CC3>1',
}
EVENT = re.compile('open|accept|reject|in|up|close|abort|boot|interrupt')
SENT = re.compile(r'>([rd-]?) (\S+)')  # a packet with this message; where it is not kept, what becomes of it
CALLS = re.compile(r'calls (\d+) to (\d+)')
GIVES = re.compile(r'gives (\d+) to (\d+)')
HEADERS = {'a': FROM_A, 'b': FROM_B}
AT_ONCE = 200  # data units, then all are acknowledged


class Conversation:
    """Both captures while they are written. By side: the lines, the nodes of the head, how many units were sent, and how many packets were given and
    kept."""

    def __init__(self):
        self.lines = {'a': [], 'b': []}
        self.nodes = {letter: SIDES[letter].addresses for letter in 'ab'}
        self.sent, self.given, self.kept = [dict.fromkeys('ab', 0) for _ in range(3)]

    def item(self, letter, words):
        """What a side does, or another side with it."""
        sent, calls, gives = SENT.fullmatch(words), CALLS.fullmatch(words), GIVES.fullmatch(words)
        if words.startswith('= '):
            self.line(letter, words[2:])
        elif sent:
            self.sends(letter, packet_of(sent[2], HEADERS[letter]), sent[1])
        elif words.startswith('nodes '):
            self.nodes[letter] = words.removeprefix('nodes ')
        elif words == 'no record':
            self.lines[letter].append(words)
        elif calls:
            for own in range(int(calls[1]), int(calls[2]) + 1):
                self.lines[letter] += ['u open %d' % own, 'u up %d 05' % own]
        elif gives:
            for number in range(int(gives[1]), int(gives[2]) + 1):
                self.sends(letter, HEADERS[letter] + '0002000100' + (number % 4096).to_bytes(2, 'little').hex() + '05', '')
        else:
            self.line(letter, 'u ' + words if EVENT.match(words) else words)

    def line(self, letter, record):
        """A record as the lists in tools/lists/pairs write it."""
        self.lines[letter] += lines_of(SIDES[letter], record)
        self.sent[letter] += record.startswith('s ')

    def sends(self, letter, packet, fate):
        """A packet is sent; it is kept by the other side, has no buffer there, is lost above DDCMP, or never comes."""
        other, number = OTHER[letter], self.given[letter] + 1
        unit, hint = data_of(number % 256, self.kept[letter] % 256, packet), self.sent[letter]
        self.lines[letter].append('s ' + unit)
        self.sent[letter] += 1
        if fate != '-':
            self.lines[other].append('%s %d %s' % (fate or 'k', hint, unit))
        if fate != 'r':
            self.given[letter] = number
        if fate in ('', 'd'):
            self.kept[other] += 1
            if self.kept[other] % AT_ONCE == 0:
                self.acknowledges(other)

    def acknowledges(self, letter):
        unit = ack_of(self.kept[letter])
        self.lines[OTHER[letter]].append('r %d %s' % (self.sent[letter], unit))
        self.line(letter, 's ' + unit)

    def text(self, letter):
        form = 3 if any(NEAR.match(line) for line in self.lines[letter]) else 1
        return '\n'.join(['ddcap %d %s' % (form, self.nodes[letter]), *self.lines[letter]]) + '\n'


def texts_of(items):
    """Both captures of a conversation, whose stations run at once unless it begins with `bare`."""
    talk, words = Conversation(), items.split('; ')
    words = words[1:] if words[0] == 'bare' else [START] + words
    for word in words:
        for item in WORDS.get(word, word).split('; '):
            letter, _, rest = item.partition(' ')
            if letter not in HEADERS:
                raise ValueError('what item is %r?' % item)
            talk.item(letter, rest)
    return talk.text('a'), talk.text('b')


# ---- the list

class Line:
    """A line of the list: where it is, the words of the command, what it shows, the turns among these, and, if it has a pair, both texts and the
    answer."""

    def __init__(self, place, command, fields):
        self.place, self.command = place, command
        self.names = fields[0].split(', ')
        self.turns = [] if fields[0].startswith('also ') else self.names
        self.texts, self.answer = None, None
        if len(fields) == 3:
            self.texts, self.answer = texts_of(fields[1]), fields[2]


def lines_listed():
    """The lines of the list."""
    command, lines = None, []
    for number, text in enumerate(open(os.path.join(TOP, LIST)), 1):
        fields, place = text.rstrip('\n').split(' | '), '%s: line %d' % (LIST, number)
        if text.startswith('#') or fields == ['']:
            continue
        if len(fields) == 1:
            command = text.partition(':')[0].split()
        elif len(fields) == 3 or len(fields) == 2 and fields[1].startswith('no pair: '):
            lines.append(Line(place, command, fields))
        else:
            sys.exit('%s: what is this?' % place)
    return lines


# ---- answers

FAULT = re.compile(r'(else )?([ab]) line (\d+): syntax')
REFUSAL = re.compile(r'(else )?([ab]) (\d+)(?: to (\d+) by (\d+))?: (\d+)( other end)?')
COUNTS = re.compile(r'links (\d+) up (\d+)')
STATION_COUNTS = r'records \d+ sent \d+ received \d+ damaged \d+ kept \d+ periods \d+'


def pattern_of(answer):
    """What is printed where that is the answer, as a pattern."""
    patterns, letters = [], iter('ab')
    for part in answer.split('; '):
        refusal, counts, fault = REFUSAL.fullmatch(part), COUNTS.fullmatch(part), FAULT.fullmatch(part)
        if fault:
            patterns.append('%s%s: line %s: syntax' % (fault[1] or '', *fault.groups()[1:]))
        elif refusal:
            patterns += refused_patterns(*refusal.groups())
        elif counts:
            patterns.append('%s %s links %s up %s' % (next(letters), STATION_COUNTS, *counts.groups()))
        elif part == 'counts':
            patterns.append('%s %s' % (next(letters), STATION_COUNTS))
        elif part in ('accepted', 'passed', 'else accepted', 'else passed', 'and more'):
            patterns.append(part)
        else:
            raise ValueError('what answer is %r?' % part)
    return ''.join(pattern + '\n' for pattern in patterns)


def refused_patterns(ends, letter, first, last, step, reason, other):
    """The lines of a refusal, or of several like it, and what is said behind them."""
    number, ends, other = int(reason), ends or '', ' by the other end' if other else ''
    for place in range(int(first), int(last or first) + 1, int(step or 1)):
        yield '%srefused %s %d line %d: %d %s%s' % (ends, letter, place, place + 2, number, NAMES[number - 1], other)
    if not ends and number in FROM_HERE:
        yield 'from here ' + FROM_HERE[number]
