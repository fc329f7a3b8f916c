"""Pairs of captures with as much on the line as there can be: both sides send at once, over several links, while units are lost, damaged and
refused, noise comes, and stations start again. `crowded(seed)` plays one by the rules of docs/SCRIPTS.md (tools/reading/player/playing.py); of every
other seed a record is left out of one capture, so that most of these pairs are refused."""
import random

from reading.player.playing import Play

UNITS = 150
STEPS = (('send', 40), ('deliver', 22), ('lose', 3), ('refuse', 2), ('damage', 4), ('noise', 1), ('timer', 9), ('in', 10), ('open', 2), ('accept', 4),
         ('close', 1), ('retry', 2), ('start again', 0.4))


def step_of(chance, word):
    """What comes after this word of a step."""
    if word == 'damage':
        return 'damage %d %d' % (chance.choice((0, 1, 3, 9, 20)), chance.randrange(1, 256))
    if word == 'in':
        return 'in %d %s' % (chance.randrange(1, 6), chance.randbytes(chance.choice((0, 3, 700))).hex() or '-')
    if word in ('accept', 'close', 'retry'):
        return '%s %d' % (word, chance.randrange(1, 6))
    return 'noise 81' if word == 'noise' else word


def crowded(seed):
    """The texts of both captures."""
    chance, play = random.Random(seed), Play('ddplay 1 1.1 63.1023')
    words, weights = zip(*STEPS)
    for step in 'a start', 'b start', 'a send', 'b deliver', 'b send', 'a deliver', 'a send', 'b deliver', 'a open', 'b open':
        play.make(step)
    while sum(line[0] == 's' for side in 'ab' for line in play.ends[side].lines) < UNITS:
        side, word = chance.choice('ab'), chance.choices(words, weights)[0]
        for step in ('halt', 'start') if word == 'start again' else (step_of(chance, word),):
            play.make('%s %s' % (side, step))
    captures = [play.capture(side) for side in 'ab']
    if seed % 2:
        capture = chance.choice(captures)
        capture.pop(chance.randrange(len(capture) // 2, len(capture)))
    return ['\n'.join(lines) + '\n' for lines in captures]
