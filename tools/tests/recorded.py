"""Captures recorded again by the calls of the recorders of examples/, in Python and in C, for tools/tests/test_recorder."""
import contextlib
import io
import os
import subprocess
import sys

from tests.program import PROGRAM, TOP

sys.path.insert(0, os.path.join(TOP, 'examples'))
from recorder import BEFORE, Recorder


def run(*words, **given):
    ran = subprocess.run([PROGRAM, *words], stdin=subprocess.DEVNULL, capture_output=True, text=True, timeout=60, **given)
    return ran.stdout + ran.stderr, ran.returncode


def recorded_again(capture, form):
    """What the recorder writes in this format of a capture in another one than 2, and the numbers of the lines that it does not take."""
    (_, _, own, peer, *_), *records = [line.split() for line in capture.splitlines()]
    text, refused = io.StringIO(), []
    recorder = Recorder(text, own, peer, form)
    for number, record in enumerate(records, 2):
        before = text.getvalue()
        try:
            record_again(recorder, record)
        except ValueError:
            refused.append(number)
            if text.getvalue() != before:
                raise AssertionError('line %d is refused, and written' % number) from None
    return text.getvalue(), refused


def record_again(recorder, record):
    verb, *words = record
    if verb == 'u':
        last = words.pop() if words[0] in ('in', 'up', 'interrupt', 'interrupted') else None
        message = None if last is None else unspelled(last)
        recorder.user(words[0], *map(int, words[1:]), message=message)
    elif verb in 'snx':
        {'s': recorder.sent, 'n': recorder.noise, 'x': recorder.composed}[verb](unspelled(words[0]))
    else:
        number = BEFORE if words[0] == '-' else int(words[0])
        {'k': recorder.kept, 'r': recorder.received, 'd': recorder.dropped}[verb](unspelled(words[1]), number)


def unspelled(word):
    return bytes.fromhex(word.strip('-'))


def compiled_calls(folder):
    """The program of tools/tests/recorder_calls.c."""
    program = os.path.join(folder, 'calls')
    source = os.path.join(TOP, 'tools', 'tests', 'recorder_calls.c')
    flags = '-std=c99', '-Wall', '-Wextra', '-Werror', '-O1', '-I', os.path.join(TOP, 'examples')
    subprocess.run([os.environ.get('CC', 'cc'), *flags, '-o', program, source], check=True)
    return program


def in_format(form, path, folder):
    """The text of a capture in this format."""
    into = os.path.join(folder, form)
    run('convert', form, path, into)
    with open(into, encoding='ascii') as converted:
        return converted.read()


def by_c(program, form, capture, folder):
    """Which calls were not taken, and the capture that was written, or None."""
    into = os.path.join(folder, 'recorded')
    with contextlib.suppress(FileNotFoundError):
        os.remove(into)
    told = subprocess.run([program, into, str(form)], input=capture, capture_output=True, text=True, check=True).stdout
    if not os.path.exists(into):
        return told, None
    with open(into, encoding='ascii') as text:
        return told, text.read()
