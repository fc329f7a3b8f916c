"""The tables of the definitions, `dna_station/specs/Table` and `dna_links/specs/Table`, read as text. A part of tools/tests/test_tables."""
import os
import re
from collections import namedtuple

TOP = os.path.dirname(os.path.dirname(os.path.dirname(os.path.realpath(__file__))))

# the names that the definitions have, and those of the pages
STATES = {'Halted': 'HALTED', 'Istrt': 'ISTRT', 'Astrt': 'ASTRT', 'Running': 'RUNNING'}
UNITS = {'Strt': 'STRT', 'Stack': 'STACK', 'Ack': 'ACK', 'Nak': 'NAK', 'Rep': 'REP', 'Data': 'data'}
PHASES = {'Calling': 'Calling', 'Called': 'Called', 'Confirming': 'Confirming', 'Running': 'RUN', 'Disconnecting': 'DI', 'Ended': 'Ended'}
MESSAGES = {
    'ConnectInitiate': 'CI', 'ConnectAck': 'connect ack', 'ConnectConfirm': 'CC', 'DisconnectInitiate': 'DI', 'DisconnectConfirm': 'DC',
    'DataSegment': 'segment', 'DataAck': 'data ack', 'LinkService': 'link service', 'OtherDataAck': 'other-data ack', 'NoOperation': 'no operation',
}
# the phases that a test of them passes: dna_links/specs/LookUps
PASSING = {'takes_messages': ['Calling', 'Confirming', 'RUN'], 'is_connected': ['Confirming', 'RUN'], 'is_calling': ['Calling']}

Arrival = namedtuple('Arrival', 'needs effects')
# what a row of the links asks, in its order: look-ups, the numbers of what refuses, phases; and the phases that its effects lead to
LinkRow = namedtuple('LinkRow', 'look_ups refusals phases leads_to')


def text_of(*path):
    with open(os.path.join(TOP, *path)) as file:
        return file.read()


def numbers():
    """The number of each reason, by its name."""
    entries = re.findall(r'Reason::(\w+) => \((\d+), "\1"', text_of('crates', 'pair_judge', 'src', 'reason.rt'))
    return {name: int(number) for name, number in entries}


def clauses(text, name):
    """The clauses of a definition, each as one line of its arguments and what is behind `=`."""
    body = re.search(r'^abbrev pub %s : [^\n]*\n(.*?)(?=^\n|^--|\Z)' % name, text, re.MULTILINE | re.DOTALL)[1]
    joined = re.sub(r'\n +', ' ', body)
    return [tuple(part.strip() for part in line.removeprefix(name + ' ').split(' = ', 1)) for line in joined.splitlines()]


def listed(text):
    """The items of a list that is spelled out."""
    return [item.strip() for item in text.split('∷')[:-1]]


# ---- the stations

def may_send(text):
    """The checks of each message that may be sent in a state, by both."""
    rows = {}
    for asked, answer in clauses(text, 'checks'):
        state, unit = re.match(r'(\w+) \(?(\w+)', asked).groups()
        if answer != 'None':
            rows[STATES[state], UNITS[unit]] = listed(answer.removeprefix('Some ').strip('()'))
    return rows


def refused_with(text):
    """The number of the reason with which each check refuses."""
    number = numbers()
    return {check: number[refusal] for check, refusal in clauses(text, 'refusal_of')}


def effect_named(effect):
    """As the pages have it."""
    return re.sub(r'GoTo (\w+)', lambda state: 'GoTo ' + STATES[state[1]], effect)


def arrivals(text):
    """What each message needs and does that comes in a state, by both; where RESP is asked, with RESP 0."""
    rows = {}
    for asked, answer in clauses(text, 'row'):
        state, unit = re.match(r'(\w+) \(?(\w+)', asked).groups()
        found = re.search(r'record \{ needs = (\w+); effects = (.*?) \}', answer)
        if found:
            rows[STATES[state], UNITS[unit]] = Arrival(found[1], [effect_named(effect) for effect in listed(found[2])])
    return rows


# ---- the links

def spelled_out(row):
    """A row with its short forms in full, as far as tests, refusals and phases go."""
    row = re.sub(r'found_in (\(.*?\)) (\w+)', r'FindsInUse \1 NoLink ∷ InPhase \2 LinkState', row)
    row = re.sub(r'in_turn (\(.*?\)) (\w+)', r'FindsInUse \1 NoLink ∷ InTurn \2 LinkState ∷', row)
    return re.sub(r'acted_row (\S+ \S+)', r'Finds (ActedOn \1) None ∷ OfThisPair CrossedLink ∷ GoTo Running ∷', row)


def link_row(text, number):
    """A row of the links by its text."""
    row = spelled_out(text)
    look_ups = re.findall(r'(?:Finds|FindsNone|FindsEither|FindsInUse|KnowsInUse) \((\w+)', row)
    refusals = [number[name] for name in re.findall('|'.join(number), row)]
    phases = None
    for test, phase in re.findall(r'InPhase (\w+)|InTurn (\w+)', row):
        phases = PASSING[test] if test else [PHASES[phase]]
    leads_to = [PHASES[phase] for phase in re.findall(r'GoTo (\w+)', row)]
    return LinkRow(look_ups, refusals, phases, leads_to)


def link_rows(text, name):
    """The rows of one table of the links, by what the user does or which message it is."""
    number, rows = numbers(), {}
    for asked, answer in clauses(text, name):
        kind = asked.strip('()').split()[0]
        if kind != 'm':
            rows[MESSAGES.get(kind, kind)] = link_row(answer, number)
    return rows
