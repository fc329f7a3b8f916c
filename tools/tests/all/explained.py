"""`why --all`: each refusal of the list is explained. Its first lines are those of the list, in order; the first part is what `why` prints without
what is answered of less; and of each further one the record, both sides before it, and the rows up to it are those of the second reading
(tools/reading/all.py), which leaves out the same. A part of tools/tests/test_all."""
import json

from lists.why_rules import rows_of_check, rules
from reading.all import Way, side_leaving, sides_leaving
from reading.alone import first_refused_alone
from reading.groups import Grouping
from reading.ladder import drawn
from reading.less import ROWS as LESS
from reading.why import accused, link_of, named_by, queued_link_of, record_of, run_sides, side_rows, state_of
from tests.all.told import are_short, goes_on, listing_of, texts_read, told_in, ways_of
from tests.program import run

LADDER = 10  # rows, before the refused record's own
PARTS = 6  # of an explanation: the verdict, the record, the check, the sides, the ladder, who is accused
LAST = 'accepted', 'passed', 'fault', 'from_here', 'else', 'more'  # objects that stand alone


def plain_words(words):
    return ['why', *ways_of(words)]


# ---- the parts

def without_less(printed):
    return ''.join(row for row in printed.splitlines(keepends=True) if not row.startswith(tuple(LESS.values())))


def parts_of(printed, told):
    """What is printed for each that is told: as many blocks, between empty rows, as come before the next one; None where they are not in order."""
    blocks, parts = printed.removesuffix('\n').split('\n\n'), []
    for each, after in zip(told, [*(each.text for each in told[1:]), None]):
        if not blocks or blocks[0] != each.text:
            return None
        size = PARTS if each.refusal and (blocks[1:2] or [None]) != [after] else 1
        parts.append(blocks[:size])
        blocks = blocks[size:]
    return parts if not blocks and all(len(part) in (1, PARTS) for part in parts) else None


def groups_of(objects):
    """The objects of each refusal, and each other one that stands alone."""
    groups = []
    for found in objects:
        if found['what'] in ('refused', *LAST):
            groups.append([])
        groups[-1].append(found)
    return groups


# ---- the reading

def sides_before(texts, step, way):
    """The sides before the record that is refused where this is left out, and which side's it is."""
    if len(texts) == 2:
        _, made, refusal = run_sides(sides_leaving(*texts, step.left, step.dropped, way)[1], None)
        return run_sides(sides_leaving(*texts, step.left, step.dropped, way)[1], made)[0], refusal[0]
    refused, side = (side_leaving(*texts, step.left, step.dropped, way) for _ in range(2))
    first_refused_alone(refused)
    while side.next < refused.next:
        side.make(None)
    side.station.partner = None
    return [side], 0


def lines_wanted(texts, step, way):
    """The objects of the record and of the sides before it, and the rows of the sides."""
    sides, letter = sides_before(texts, step, way)
    words, link = sides[letter].records[sides[letter].next], queued_link_of if way.queued else link_of
    lines, rows = [record_of(words)], []
    for other in (letter, 1 - letter)[:len(sides)]:
        live = [one for one in sides[other].links.links if not one.is_dead()] if way.queued else \
            [one for one in sides[other].links.links if one.phase != 'Ended']
        lines += [state_of(other, sides[other]), *(link(other, one) for one in live)]
        rows += side_rows(other, sides[other], named_by(words)[::1 if other == letter else -1])
    return lines, rows


def may_be_accused(number, kind, queued):
    """Whom a refusal may accuse: where nodes act at once, only if the node has no queue."""
    named = {'other end', accused(number, kind)}
    return named | {'nobody'} | (set() if queued else {name.replace(' ', '_') + '_without_queue' for name in named})


def fault_of_refusal(group, part, wanted, queued):
    """What is wrong with the objects and the blocks of a refusal that is explained, or None."""
    refused, record, check, *others = group
    lines, rows = wanted
    told = [record] + [found for found in others if found['what'] in ('state', 'link')]
    if [{key: found.get(key) for key in line} for found, line in zip(told, lines)] != lines or len(told) != len(lines):
        return 'objects %r, where %r is wanted' % (told, lines)
    if refused['accuses'] not in may_be_accused(refused['number'], record['kind'], queued) or check['what'] != 'check':
        return 'who is accused, or no check: %r, %r' % (refused, check)
    rule = [check['rule'], check['table']]
    if rule != list(rules()[refused['number']]) or check['seen'] == check['allowed'] or part[2].splitlines() != rows_of_check(check):
        return 'the check: %r, %r' % (check, part[2])
    if not part[1].partition('\n')[0].partition(': ')[0].endswith(':%d' % refused['line']) or not part[5].startswith('accused '):
        return 'the record, or who is accused: %r, %r' % (part[1], part[5])
    if rows is not None and part[3].splitlines() != rows:
        return 'rows of the sides %r, where %r is wanted' % (part[3].splitlines(), rows)
    return None


def fault_of_ladder(rows, refused, texts):
    """Of both captures the last rows up to the record; of one it has the last one. What becomes of a unit later is not told."""
    if len(texts) == 1:
        return None if [row.endswith('  <== refused') for row in rows[1:]] == [False] * (len(rows) - 2) + [True] else 'the ladder %r' % rows
    wanted = drawn(*texts, ('ab'.index(refused['side']), refused['record']), rows=LADDER + 1).splitlines()
    is_right = list(map(unknown, rows[1:])) == list(map(unknown, wanted))
    return None if is_right else 'the ladder: %r' % [pair for pair in zip(rows[1:], wanted) if pair[0] != pair[1]]


def unknown(row):
    """The row without what becomes of a unit."""
    return row.replace('|x-', '|.-').replace('-x|', '-.|')


# ---- all of it

def fault_of_first(plain, part, group, objects):
    """How the first part is not what `why` prints, without what is answered of less, or None."""
    if '\n\n'.join(part) + '\n' != without_less(plain):
        return 'the first part %r, where %r is wanted' % (part, plain)
    return None if group == [found for found in objects if found['what'] not in LESS] else 'the first objects %r, where %r are wanted' % (group, objects)


def heads_of(told, objects):
    """Whether the objects stand for what is told, in order: of what is told last `else` comes first."""
    kinds = []
    for each in told:
        first = each.text.partition('\n')[0]
        kinds += ['else'] if first.startswith('else ') else []
        what = 'refused' if each.refusal else 'from_here' if first.startswith('from here') else 'more' if first == 'and more' else \
            first.removeprefix('else ') if first.removeprefix('else ') in LAST else 'fault'
        kinds.append(what)
    return kinds == [group[0]['what'] for group in objects]


def fault_of_explained(words, texts, paths, got):
    """How `why --all` of these captures is wrong, of which the list is printed so, or None."""
    plain, printed, as_json = (run(*plain_words(words), *more, *paths) for more in ([], ['--all'], ['--all', '--json']))
    plain_json = run(*plain_words(words), '--json', *paths)
    if not goes_on(got[0]):
        return None if (printed, as_json) == (plain, plain_json) else 'why --all: %r, where %r is wanted' % ((printed, as_json), (plain, plain_json))
    told = told_in(got[0])
    parts, groups = parts_of(printed[0], told), groups_of([json.loads(line) for line in as_json[0].splitlines()])
    if parts is None or {printed[1:], as_json[1:]} != {('', 1)} or not heads_of(told, groups):
        return 'why --all: %r, and %r, where %r is told' % (printed, groups, told)
    refusals = [(each, part) for each, part in zip(told, parts) if each.refusal]
    explained = [group for group in groups if group[0]['what'] == 'refused']
    if any([group[0][key] for key in ('side', 'record', 'number')] != [each.refusal[2], int(each.refusal[3]), int(each.refusal[4])]
           for group, (each, _) in zip(explained, refusals)):
        return 'why --all --json: %r, where %r is told' % (explained, told)
    fault = fault_of_first(plain[0], refusals[0][1], explained[0], [json.loads(line) for line in plain_json[0].splitlines()])
    return fault or fault_of_others(words, texts, refusals, explained) or fault_of_last(groups[-1], told[-1])


def fault_of_others(words, texts, refusals, explained):
    """How a further refusal is explained otherwise, or None. Where periods are not asked it may be told by its line alone, and
    so may a message between wrong nodes."""
    listing, way = listing_of(words, texts), Way('--line' in words, '--queued' in words, Grouping())
    listing.printed()
    read = texts_read(texts)
    for step, (each, part), group in list(zip(listing.steps, refusals, explained))[1:]:
        if (len(part) == 1) != (len(group) == 1) or len(part) == 1 and 13 not in step.dropped and ': 16 ' not in part[0]:
            return 'not explained: %r, %r' % (part, group)
        if len(part) > 1:
            lines, rows = lines_wanted(read, step, way)
            if each.text.startswith('else '):  # by the line alone, without links
                lines, rows = [line for line in lines if line['what'] != 'link'], None
            fault = fault_of_refusal(group, part, (lines, None if way.queued else rows), way.queued) or are_short(texts) and \
                fault_of_ladder(part[4].splitlines(), group[0], read)
            if fault:
                return 'the explanation of %r: %s' % (each.text, fault)
    return None


def fault_of_last(group, told):
    """What is accepted at the end has no other key by `why`."""
    is_right = group == [{'what': group[0]['what']}] if group[0]['what'] in ('accepted', 'passed') else True
    return None if is_right else 'the last object %r' % group
