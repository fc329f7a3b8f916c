#!/usr/bin/env python3
"""The second reading of the rules as a program, which prints what ddcap prints and has its status:

reading_program.py check [--line] [--queued] [--all] A B
reading_program.py alone [--line] [--queued] [--all] A
reading_program.py play SCRIPT A B

reading_program.py show A
reading_program.py convert N A B

A capture is read as docs/CAPTURES.md tells, up to the first line that departs. Other words, and files that can't be read, are not for it."""
import os
import sys

sys.dont_write_bytecode = True  # leaves no file beside the modules
sys.path.insert(0, os.path.dirname(os.path.dirname(os.path.realpath(__file__))))
from reading.all import alone_all, check_all
from reading.alone import judged_alone
from reading.judging import RULES, judged
from reading.player.playing import HEAD as SCRIPT_HEAD
from reading.player.playing import played
from reading.rows import Departs
from reading.texts import converted, read, shown


def answered(words, paths):
    """What is printed to both streams."""
    queued, line = '--queued' in words, '--line' in words
    try:
        texts = [read(path, letter) for letter, path in zip('ab', paths)]
        if '--all' in words:
            return (alone_all if words[0] == 'alone' else check_all)(*texts, line, queued), ''
        return judged_alone(*texts, line, queued=queued) if words[0] == 'alone' else judged(RULES, *texts, queued, line), ''
    except Departs as departs:
        return '', '%s\n' % departs


def play(path, captures):
    """Plays a script as the reading of the player's rules does, and writes both captures. What is printed to both streams."""
    with open(path, newline='', encoding='latin-1') as file:
        *lines, rest = file.read().split('\n')
    head, steps = ''.join(lines[:1]), lines[1:]
    if SCRIPT_HEAD.fullmatch(head) is None:
        return '', 'script: line 1: syntax\n'
    # a last line without LF is no step
    count, fault, made = played(steps + [''] * (rest != ''), head=head)
    for side, capture in zip('ab', captures):
        with open(capture, 'w') as file:
            file.write(''.join(line + '\n' for line in made[side]))
    return ('', 'script: line %d: %s\n' % (count + 2, fault)) if fault else ('played %d steps\n' % count, '')


def printed(command, options, words):
    """What this command prints to both streams."""
    if command == 'play':
        return play(words[0], words[1:])
    if command == 'show':
        return shown(words[0])
    if command == 'convert':
        return converted(int(words[0]), *words[1:])
    return answered([command] + options, words)


def main():
    words = sys.argv[1:]
    options = [word for word in words[1:] if word in ('--queued', '--line', '--all')]
    others = [word for word in words[1:] if word not in options]
    counts = {'check': 2, 'alone': 1, 'play': 3, 'show': 1, 'convert': 3}
    if not words or len(others) != counts.get(words[0]):
        sys.exit(__doc__)
    out, err = printed(words[0], options, others)
    sys.stdout.write(out)
    sys.stderr.write(err)
    sys.exit(2 if err else 1 if out.startswith('refused') else 0)


main()
