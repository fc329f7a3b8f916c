"""The words of turns. They tell what becomes of the parts of a row: `without X` and `keeps X` leave out, `with X` puts in, `X before Y` orders,
`X in place of Y` is another look-up. All other turns are switches: the reading asks the row for them by name, in the place where they turn it
(tools/reading/turns/weaving.py puts these questions in)."""
import re

from reading.rows import Row

LISTS = ('checks', 'effects', 'tests')


# ---- the words of turns, each with what it makes of the parts of a row, or None where it makes nothing of them

def left_out(parts, name):
    """The lists without a check, an effect or a test."""
    return {part: [item for item in parts[part] if item != name] for part in LISTS if name in parts.get(part, [])} or None


def put_in(parts, name):
    """The checks or the effects with one more, at the end."""
    part = 'checks' if name.startswith('CauseIsOpen') else 'effects'
    return {part: parts[part] + [name]} if part in parts else None


def before(parts, first, second):
    """The checks, the first of these in front of the second."""
    checks = parts.get('checks', [])
    if first not in checks or second not in checks:
        return None
    others = [check for check in checks if check != first]
    place = others.index(second)
    return {'checks': others[:place] + [first] + others[place:]}


def last(parts, name):
    """The checks, this one at the end."""
    others = [check for check in parts.get('checks', []) if check != name]
    return {'checks': others + [name]} if len(others) < len(parts.get('checks', [])) else None


def leads_to(parts, phase):
    """The effects, which lead to that phase."""
    effects = [effect for effect in parts.get('effects', []) if not effect.startswith('GoTo ') and effect != 'EndLink']
    return {'effects': effects + ['GoTo ' + phase]} if 'effects' in parts else None


GRAMMAR = [
    ('row', lambda parts: {'allowed': not parts['allowed']} if 'allowed' in parts else None),
    ('kept', lambda parts: {'kept': True} if 'need' in parts else None),
    ('needs (.*)', lambda parts, need: {'need': need} if 'need' in parts else None),
    ('without (.*)', left_out),
    ('keeps (.*)', lambda parts, name: left_out(parts, 'anew ' + name)),
    ('with (.*)', put_in),
    ('(.*) before (.*)', before),
    ('(.*) last', last),
    ('(.*) in place of (.*)', lambda parts, other, name: {'instead': {name: other}} if 'instead' in parts else None),
    ('GoTo (.*)', leads_to),
    ('begins in (.*)', lambda parts, phase: {'begins': phase} if 'begins' in parts else None),
    ('said at most (.*)', lambda parts, most: {'most': int(most)} if 'most' in parts else None),
    ('in (.*) too', lambda parts, phase: {'phases': parts['phases'] + [phase]} if 'phases' in parts else None),
    ('not in (.*)', lambda parts, phase: {'phases': [other for other in parts['phases'] if other != phase]} if 'phases' in parts else None),
]


def by_grammar(row, turn):
    """The parts that the words of the turn change, or None."""
    for form, change in GRAMMAR:
        words = re.fullmatch(form, turn)
        changed = change(row.parts, *words.groups()) if words else None
        if changed is not None:
            return changed
    return None


def has_switch(rules, heading, turn):
    """Whether the turn can be made: by its words, or by a switch for which the row was asked."""
    is_asked = any(heading == asked and turn in switches for asked, switches in Row.asked)
    return heading in rules and (is_asked or by_grammar(rules[heading], turn) is not None)


def with_turn(rules, heading, turn):
    """The rules, with one row turned."""
    row = rules[heading]
    return {**rules, heading: row.copy(turn, **(by_grammar(row, turn) or {}))}
