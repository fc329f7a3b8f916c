"""Scripts of any length, for the program that measures `play`. Each `..._played(text, .., count)` writes a script to an open file. What is
handed in is random with a fixed seed, the same in each run."""
import random

STARTED = 'a start;b start;a send;b deliver;b send;a deliver;a send;b deliver'
OPENED = 'a open;a send;b deliver;b accept %d;b send;a deliver;a send;b deliver'
CLOSED = 'a close %d;a send;b deliver;b send;a deliver'
# segments of a that go at once, before b acknowledges them
AT_ONCE = 100


def lines(steps):
    return steps.replace(';', '\n') + '\n'


def segments_played(text, length, steps):
    """About so many steps over one link, which carries messages of one segment of this length from a to b."""
    source = random.Random(1)
    text.write('ddplay 1 1.1 1.2\n' + lines(STARTED) + lines(OPENED % 1))
    for _ in range(steps // (3 * AT_ONCE + 2)):
        for _ in range(AT_ONCE):
            text.write('a in 1 %s\na send\n' % source.randbytes(length).hex())
        text.write('b deliver\n' * AT_ONCE + 'b send\na deliver\n')


# what becomes of a segment that does not come at first, until it is to be sent again
REFUSED = 'b refuse;b send;a deliver'
LOST = 'b lose;a timer;a send;b deliver;b send;a deliver'


def segments_sent_again(text, messages, each, meanwhile):
    """So many messages of one byte over one link, one after another; of one in so many the segment does not come at first."""
    text.write('ddplay 1 1.1 1.2\n' + lines(STARTED) + lines(OPENED % 1))
    for message in range(messages):
        text.write('a in 1 61\n')
        if message % each == each - 1:
            text.write(lines('a send;' + meanwhile))
        text.write(lines('a send;b deliver;b send;a deliver;a send;b deliver'))


def links_played(text, links):
    """So many links, each opened, used and closed before the next."""
    text.write('ddplay 1 1.1 1.2\n' + lines(STARTED))
    for link in range(1, links + 1):
        text.write(lines(OPENED % link) + 'a in %d 05\n' % link + lines('a send;b deliver;b send;a deliver') + lines(CLOSED % link))


# ---- scripts with links that live at the same time

def links_left_open(text, links):
    """So many links that are opened and accepted, one after another, and stay open."""
    text.write('ddplay 1 1.1 1.2\n' + lines(STARTED))
    for link in range(1, links + 1):
        text.write(lines(OPENED % link))


def links_played_by_turns(text, messages):
    """So many messages of one segment of one byte over 1,000 links that stay open, each link in its turn, 100 of either side at once, which
    the other side acknowledges on each link."""
    source = random.Random(1)
    links_left_open(text, 1000)
    for turn in range(messages // 100):
        own, other = 'ab'[turn % 2], 'ba'[turn % 2]
        for place in range(turn * 100, turn * 100 + 100):
            text.write('%s in %d %s\n%s send\n' % (own, place % 1000 + 1, source.randbytes(1).hex(), own))
        text.write('%s deliver\n' % other * 100 + ('%s send\n' % other + '%s deliver\n' % own) * 100)


def links_played_in_all_phases(text, links):
    """So many links side by side, in all phases. In turn one is called, one rejected, one runs with a message each way, and one has ended; the
    last eight are accepted, and their CC is still to be sent. In the end one that runs has messages to send, one is closed, and timers run
    out."""
    text.write('ddplay 1 1.1 1.2\n' + lines(STARTED))
    answered = 0
    for link in range(1, links + 1):
        text.write(lines('a open;a send;b deliver'))
        if link > links - 8:
            text.write('b accept %d\n' % link)
        elif link % 4 == 0:
            text.write(lines('b send;a deliver'))
        else:
            answered += 1
            text.write(lines('b %s %d;b send;a deliver;a send;b deliver' % ('reject' if link % 4 == 1 else 'accept', link)))
            if link % 4 == 2:
                text.write('a in %d 05\nb in %d 06\n' % (link, answered))
                text.write(lines('a send;b deliver;b send;a deliver;b send;a deliver;a send;b deliver'))
            elif link % 4 == 3:
                text.write(lines(CLOSED % link))
    text.write('a in 2 05\na in 2 06\na close 6\na retry 6\na retry 2\n')
