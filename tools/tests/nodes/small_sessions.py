"""Sessions of two small nodes (tools/tests/nodes/small_node.py) for tools/tests/test_bugs. A session is given both nodes, by side, and a source of
chance."""
MOST_STEPS = 3000


class Stuck(Exception):
    """Two nodes are not done after many steps: a bug keeps them from it."""


def step(nodes, chance, loss):
    """One node hears or sends something, or asks again; answers whether both are done."""
    one, other = chance.sample([nodes['a'], nodes['b']], 2)
    for link in one.links:
        if link.phase == 'Called' and not link.is_owed:
            one.answer(link)
    if other.out and chance.random() < 0.6:
        deliver(other, one, chance, loss)
    elif not one.send() and not one.out and not other.out:
        if one.is_done() and other.is_done():
            return True
        one.wait()
    return False


def run(nodes, chance, loss=0.0, steps=MOST_STEPS):
    """Lets both nodes send and hear until they are done. Of the units so many are lost, and as many damaged."""
    for _ in range(steps):
        if step(nodes, chance, loss):
            return
    raise Stuck


def deliver(sender, node, chance, loss):
    number, unit = sender.out.pop(0)
    fate = chance.random()
    if fate >= 2 * loss:
        node.come(number, unit)
    elif fate >= loss:
        place = chance.randrange(len(unit))
        node.come(number, unit[:place] + bytes([unit[place] ^ 1 << chance.randrange(8)]) + unit[place + 1:])


def send_all(node):
    while node.send():
        pass


def started(nodes, chance, loss=0.0):
    for side in chance.sample('ab', 2):
        nodes[side].start()
    run(nodes, chance, loss)


def linked(nodes, chance, loss=0.0):
    """Two links, one opened by each side."""
    started(nodes, chance, loss)
    for side in 'ab':
        nodes[side].open()
        run(nodes, chance, loss)


def users_talk(nodes, chance, count):
    """Each user hands in messages of many lengths, none and whole numbers of pieces among them."""
    for node in nodes.values():
        for link in node.links:
            if link.phase == 'RUN':
                for length in chance.sample([0, 1, 7, 20, 40, 41, 55, 90], count):
                    node.hand_in(link, chance.randbytes(length))
        node.hellos += count


def restart(nodes):
    """Both stations start again; what is on its way is lost, and the links live on."""
    for node in nodes.values():
        node.out.clear()
        if node.state != 'HALTED':
            node.halt()
        node.start()


# ---- the sessions

def quiet(nodes, chance, loss=0.0):
    """Links, messages, and the end of the links, on a line without loss."""
    linked(nodes, chance, loss)
    for count in (3, 8):
        users_talk(nodes, chance, count)
        run(nodes, chance, loss)
    for side, node in nodes.items():
        mine = next((link for link in node.links if link.is_opened and link.phase == 'RUN'), None)
        if mine:
            node.close(mine)
        run(nodes, chance, loss)


def lossy(nodes, chance):
    """The same, where units are lost and damaged, and packets find no buffer."""
    for node in nodes.values():
        node.lack = 0.1
    lost(nodes, chance)


def lost(nodes, chance):
    """The same, where units are lost and damaged."""
    quiet(nodes, chance, 0.08)


def restarted(nodes, chance, loss=0.0):
    """Both stations start again while messages are on their way, and go on with new ones."""
    linked(nodes, chance, loss)
    for _ in range(6):
        users_talk(nodes, chance, 4)
        for _ in range(chance.randrange(30, 80)):
            step(nodes, chance, loss)
        restart(nodes)
        users_talk(nodes, chance, 2)
        run(nodes, chance, loss)


def restarted_and_lost(nodes, chance):
    """The same, where units are lost and damaged."""
    restarted(nodes, chance, 0.08)


def restarted_under_way(nodes, chance):
    """Both stations start again at once, some of them while they start, and what is on its way arrives."""
    linked(nodes, chance)
    for _ in range(8):
        users_talk(nodes, chance, 2)
        for node in nodes.values():
            if node.state != 'HALTED':
                node.halt()
            node.start()
        for _ in range(chance.randrange(2, 12)):
            step(nodes, chance, 0.0)
    run(nodes, chance)


def one_restarts(nodes, chance):
    """One node starts again while the other runs and has data to send, each in its turn."""
    linked(nodes, chance)
    for side in 'abab':
        users_talk(nodes, chance, 3)
        send_all(nodes[side])
        nodes[side].halt()
        nodes[side].start()
        run(nodes, chance)


def starts(nodes, chance):
    """Starts of which units are lost, one after another, with a little data."""
    for node in nodes.values():
        node.hellos = 2
    started(nodes, chance, 0.2)
    for _ in range(8):
        restart(nodes)
        for node in nodes.values():
            node.hellos += 2
        run(nodes, chance, 0.2)


def many_hellos(nodes, chance):
    """More packets than there are numbers in a byte."""
    started(nodes, chance)
    for _ in range(5):
        for node in nodes.values():
            node.hellos += 60
        run(nodes, chance)


def burst(nodes, chance):
    """Each node sends all that it may before anything arrives."""
    started(nodes, chance)
    for node in nodes.values():
        node.hellos = 300
        send_all(node)
    run(nodes, chance)


def links_again(nodes, chance):
    """Links one after another, some of them rejected, whose addresses are used again."""
    started(nodes, chance)
    for turn in range(6):
        nodes['b'].rejects = nodes['a'].rejects = turn == 1
        for side in 'ab':
            nodes[side].open()
        run(nodes, chance)
        users_talk(nodes, chance, 3)
        run(nodes, chance)
        for node in nodes.values():
            for link in node.links:
                if link.is_opened and link.phase == 'RUN':
                    node.close(link)
        run(nodes, chance)


def called_again(nodes, chance):
    """Links are opened, and both stations start again before these run, so that calls go once more."""
    started(nodes, chance)
    for _ in range(6):
        for side in 'ab':
            nodes[side].open()
        for _ in range(chance.randrange(2, 14)):
            step(nodes, chance, 0.0)
        restart(nodes)
        run(nodes, chance)


def opened_while_closing(nodes, chance):
    """A link is opened while another is being closed, and while others run."""
    linked(nodes, chance)
    for _ in range(3):
        for node in nodes.values():
            closing = next((link for link in node.links if link.phase == 'RUN' and link.is_opened), None)
            if closing:
                node.close(closing)
            node.open()
        run(nodes, chance)


def closed_under_way(nodes, chance):
    """Links are closed while messages are on their way."""
    linked(nodes, chance)
    users_talk(nodes, chance, 4)
    for _ in range(chance.randrange(20, 60)):
        step(nodes, chance, 0.0)
    for node in nodes.values():
        for link in node.links:
            if link.is_opened and link.phase == 'RUN':
                node.close(link)
    run(nodes, chance)


def closed_by_both(nodes, chance):
    """Both users close each link at once, and open another as soon as it is over."""
    linked(nodes, chance)
    for _ in range(8):
        for node in nodes.values():
            for link in node.links:
                if link.phase == 'RUN':
                    node.close(link)
        for _ in range(40):
            step(nodes, chance, 0.0)
            for node in nodes.values():
                if not any(link.is_opened and link.phase != 'Ended' for link in node.links):
                    node.open()
        run(nodes, chance)


def long_message(nodes, chance):
    """A message of more segments than may be unacknowledged at once."""
    linked(nodes, chance)
    nodes['a'].hand_in(nodes['a'].links[0], bytes(2100 * nodes['a'].SIZE))
    run(nodes, chance, steps=20_000)


def silent(nodes, chance):
    """A long message each way, of which no segment is acknowledged until all is quiet."""
    linked(nodes, chance)
    for node in nodes.values():
        node.is_silent = True
        node.hand_in(node.links[0], bytes(2100 * node.SIZE))
    run(nodes, chance, steps=20_000)
    for node in nodes.values():
        node.is_silent = False
    run(nodes, chance, steps=20_000)
