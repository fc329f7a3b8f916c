"""What tools/tests/test_recorder tries of a recorder that is switched on while the line runs, whose capture is a part of a run."""
import contextlib
import io
import os
import random
import re

from tests.nodes.recorded_nodes import session
from tests.program import TOP
from tests.recorded import BEFORE, Recorder, by_c, compiled_calls, recorded_again, run
from tests.recorder_values import EACH_LINE, LAST, LAST_OF_PARTS, OF_PARTS, any_call

HEAD = 'ddcap 4 1.1 1.2 part\n'
PARTS = [os.path.join(TOP, 'examples', 'running_line.a')]
NODES = {'a': ('1.1', '1.2'), 'b': ('1.2', '1.1')}
SESSIONS, LATEST = 12, 400  # how many, and before which line of a recorder it is switched on
CALLS = 600


def part_text(capture):
    """A capture in another format than 2 as a part of a run."""
    return re.sub(r'^ddcap \d (.*)', r'ddcap 4 \1 part', capture)


def each_line():
    """A part with each line that parts have; `-` comes before the numbers and after them."""
    head, *lines = part_text(EACH_LINE).splitlines()
    return '\n'.join([head, *OF_PARTS, *lines, *OF_PARTS, LAST_OF_PARTS]) + '\n'


def texts():
    """The parts that are recorded again, with their names."""
    yield 'each line of a part', each_line()
    for path in PARTS:
        with open(path, encoding='ascii') as part:
            yield os.path.basename(path), part.read()


class SwitchedOn(Recorder):
    """Is switched on after so many lines: `off` are left. `skipped` of them were `s` lines, which the numbers of the `other` one leave out."""

    def __init__(self, file, own, peer, off):
        self.off = self.skipped = 0
        super().__init__(file, own, peer, 4)
        self.off = off

    def line(self, words):
        if self.off:
            self.off -= 1
            self.skipped += words.startswith('s ')
        else:
            super().line(words)

    def receipt(self, letter, unit, number):
        began = number - self.other.skipped
        super().receipt(letter, unit, BEFORE if began < 0 else began)


class KeepsNothing(SwitchedOn):
    """Calls `received` for a packet that was kept."""

    def kept(self, unit, number=None):
        self.received(unit, number)


class Unnumbered(SwitchedOn):
    """Knows no numbers."""

    def receipt(self, letter, unit, number):
        Recorder.receipt(self, letter, unit, None)


def parts_of_session(folder, kind, seed):
    """The texts of both sides' parts, and what `alone --line` says of them."""
    chance = random.Random(seed)
    recorders = {side: kind(io.StringIO(), *nodes, chance.randrange(LATEST)) for side, nodes in NODES.items()}
    recorders['a'].other, recorders['b'].other = recorders['b'], recorders['a']
    session(recorders, seed)
    for recorder in recorders.values():
        text = recorder.file.getvalue()
        yield text, read(text, folder)


def read(text, folder):
    path = os.path.join(folder, 'part')
    with open(path, 'w', encoding='ascii', newline='\n') as capture:
        capture.write(text)
    return run('alone', '--line', path)


def faults_of_parts(folder):
    """How parts that recorder.py writes are not what was called, or are no parts, or are judged otherwise than they should be, or None."""
    for name, text in texts():
        yield None if recorded_again(text, 4) == (text, []) else '%s: recorded otherwise' % name
    for line in each_line().splitlines()[1:]:
        printed, status = read(HEAD + line + '\n', folder)
        yield None if status in (0, 1) else 'a line of a part: %s: %s' % (line, printed)
    yield None if recorded_again(HEAD + LAST + '\n', 4) == (HEAD, [2]) else 'a number that no part has was taken'
    yield None if read(HEAD + LAST + '\n', folder)[1] == 2 else 'a number that no part has was read'
    for form in (1, 2, 3):
        only = HEAD + '\n'.join(OF_PARTS) + '\n'
        right = 'ddcap %d 1.1 1.2\n' % form, [2, 3, 4]
        yield None if recorded_again(only, form) == right else 'format %d takes receipts of parts' % form
    yield from faults_of_any_calls(folder)
    for kind in (SwitchedOn, Unnumbered):
        for seed in range(SESSIONS):
            for text, (printed, status) in parts_of_session(folder, kind, seed):
                numbered = re.search(r'^[rk] \d', text, re.MULTILINE) is not None
                right = status == 0 and printed.startswith('passed\n') and text.count('\n') > 100 and numbered == (kind == SwitchedOn)
                yield None if right else '%s, session %d: %s' % (kind.__name__, seed, printed)
    for seed in range(SESSIONS):
        for _, (printed, status) in parts_of_session(folder, KeepsNothing, seed):
            yield None if status == 1 and ': 8 WrongResponse' in printed else 'a part without kept packets, session %d: %s' % (seed, printed)


def faults_of_any_calls(folder):
    """How a line that any calls wrote is none of a part, or None."""
    text, taken, chance = io.StringIO(), 0, random.Random(4)
    recorder = Recorder(text, '1.1', '1.2', 4)
    for _ in range(CALLS):
        with contextlib.suppress(ValueError):
            any_call(recorder, chance)
            taken += 1
    head, *lines = text.getvalue().splitlines()
    yield None if (head + '\n', len(lines)) == (HEAD, taken) and taken > 100 else 'any calls: %s, %d taken' % (head, taken)
    for line in sorted(set(lines)):
        printed, status = read(HEAD + line + '\n', folder)
        yield None if status in (0, 1) else 'any calls: %s: %s' % (line[:40], printed)


def faults_of_parts_in_c(folder):
    """How parts that recorder.h writes are not what was called, or None."""
    program = compiled_calls(folder)
    for name, text in texts():
        called = text.replace(' part\n', '\n')  # the head as the calls are told it
        yield None if by_c(program, 4, called, folder) == ('', text) else '%s in C: recorded otherwise' % name
    last = by_c(program, 4, 'ddcap 4 1.1 1.2\n%s\n' % LAST, folder)
    yield None if last == ('line 2\n', HEAD) else 'a number that no part has was taken in C'
    for form in (1, 2, 3):
        told = by_c(program, form, 'ddcap 4 1.1 1.2\n' + '\n'.join(OF_PARTS) + '\n', folder)
        right = 'line 2\nline 3\nline 4\n', 'ddcap %d 1.1 1.2\n' % form
        yield None if told == right else 'format %d takes receipts of parts in C' % form
