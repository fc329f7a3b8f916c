"""`check --all --json` and `alone --all --json`: each line of the list as an object, in order; and `check --all` of several pairs, which answers each
as alone. A part of tools/tests/test_all."""
import json
import re

from tests.all.told import goes_on, told_in
from tests.program import run

FAULT = re.compile(r'(?:else )?([ab]): line (\d+): ([a-z ]+)')


def counts_of(lines):
    """The counts of each side in these lines, by its letter."""
    found = [line.split() for line in lines]
    return {words[0]: {name: int(count) for name, count in zip(words[1::2], words[2::2])} for words in found}


def objects_of(told, name, is_alone):
    """The objects of what is told at once: of a last answer `else` comes first."""
    first, *counts = told.text.splitlines()
    if first.startswith('from here '):
        return [{'what': 'from_here', 'unasked': first.split()[2]}]
    if first == 'and more':
        return [{'what': 'more'}]
    before = [{'what': 'else'}] if first.startswith('else ') else []
    if told.refusal:
        _, side, record, number, reason, other = told.refusal.groups()
        accuses = {'accuses': 'other end' if other else None} if is_alone else {}
        return before + [{'what': 'refused', 'file': name, 'side': side, 'record': int(record), 'line': int(record) + 2, 'number': int(number),
                          'name': reason, **accuses}]
    fault = FAULT.fullmatch(first)
    if fault:
        return before + [{'what': 'fault', 'file': name, 'side': fault[1], 'line': int(fault[2]), 'fault': fault[3]}]
    return before + [{'what': first.removeprefix('else '), 'file': name, **counts_of(counts)}]


def fault_of_objects(words, paths, got):
    """How the objects are not those of the list, which is printed so, or None."""
    printed = run(*words, '--json', *paths)
    if not goes_on(got[0]):
        plain = run(*[word for word in words if word != '--all'], '--json', *paths)
        return None if printed == plain else 'objects %r, where %r is wanted' % (printed, plain)
    wanted = [found for told in told_in(got[0]) for found in objects_of(told, paths[0], words[0] == 'alone')]
    lines = printed[0].splitlines()
    if [json.dumps(found, ensure_ascii=False) for found in wanted] != lines or printed[1:] != got[1:]:
        return 'objects %r, where %r is wanted' % (printed, wanted)
    return None


def faults_of_several(words, pairs):
    """How several pairs are not each answered as alone, each a fault or None."""
    files, answers = [path for pair in pairs for path in pair], [run(*words, *pair) for pair in pairs]
    wanted = tuple(''.join('%s: %s' % (pair[0], answer[stream]) if answer[stream] else '' for pair, answer in zip(pairs, answers)) for stream in (0, 1))
    got, wanted = run(*words, *files), (*wanted, max(answer[2] for answer in answers))
    yield None if got == wanted else '%s of several: %r, where %r is wanted' % (' '.join(words), got, wanted)
    answers = [run(*words, '--json', *pair) for pair in pairs]
    got, wanted = run(*words, *files, '--json'), (*(''.join(answer[stream] for answer in answers) for stream in (0, 1)), wanted[2])
    yield None if got == wanted else '%s --json of several: %r, where %r is wanted' % (' '.join(words), got, wanted)
