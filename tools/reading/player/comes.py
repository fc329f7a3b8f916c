"""What comes of a message of a packet that was kept, at the links of an end of the player, by the pages LINKS and PLAYER. `arrived` answers the
messages that are whole by it, each with the own address of its link."""
from reading.player.links import Link


def arrived(links, message):
    """What becomes whole by this message, once all has become of it that becomes of it."""
    part = PARTS.get(message.flag)
    return part(links, message) if part else segment(links, message) if message.flag & 0x9f == 0 else []


def connect(links, message):
    """A CI: it begins a link, or is a repeat."""
    known = [link for link in links.links if link.is_live() and link.far == message.far]
    if not known:
        links.links.append(Link('Called', far=message.far))
        links.links[-1].owed.add('connect ack')
        return []
    link = known[0]
    if link.phase == 'Called':
        link.owed.add('connect ack')
    elif link.phase == 'Confirming':
        link.owed.add('CC')
    return []


def confirm(links, message):
    """A CC: it leads to RUN, or is a repeat there."""
    link = links.at(message.own)
    if link is None:
        return []
    if link.phase == 'Calling':
        links.enter(link, 'RUN')
        link.far = message.far
        link.owed.add('data ack')
    elif link.far == message.far and link.phase == 'RUN':
        link.owed.add('data ack')
    return []


def linked(links, message):
    """The live link with the two addresses of the message, or None."""
    link = links.at(message.own)
    return link if link is not None and link.far == message.far else None


def disconnect(links, message):
    """A DI: it ends the link, and brings a DC in any case."""
    link = linked(links, message)
    calling = links.at(message.own)
    if link is None and calling is not None and calling.phase == 'Calling':
        link = calling
    reason = 41 if link is None else 42
    if link is not None:
        links.enter(link, 'Ended')
    links.confirms.append((message.far, message.own, reason))
    return []


def end(links, message):
    """A DC: it ends the link."""
    link = linked(links, message)
    if link is not None:
        links.enter(link, 'Ended')
    return []


def of_run(links, message):
    """The link that acts on a message of RUN, or None. It is in RUN then."""
    link = linked(links, message)
    if link is None or link.phase not in ('Confirming', 'RUN'):
        return None
    if link.phase == 'Confirming':
        links.enter(link, 'RUN')
    return link


def data_ack(links, message):
    """A data ack: it acknowledges."""
    link = of_run(links, message)
    if link is None:
        return []
    for word in message.words:
        acknowledge(link, word % 4096)
    return []


def acknowledge(link, number):
    """All segments through this number are acknowledged, where it is one that is outstanding."""
    count = (number - link.acknowledged) % 4096
    if not 0 < count <= len(link.given):
        return
    for number in list(link.given)[:count]:
        del link.given[number]
        link.acknowledged = number
        link.gone.discard(number)


def segment(links, message):
    """A segment: it is held, or was received already; it brings a data ack."""
    link = of_run(links, message)
    if link is None:
        return []
    ahead = (message.number - link.received) % 4096
    link.owed.add('data ack')
    if not 1 <= ahead <= 2047:
        return []
    link.held[message.number] = message
    return whole(link)


def whole(link):
    """The messages that are whole by what is held, in order."""
    messages = []
    following = (link.received + 1) % 4096
    while following in link.held:
        message = link.held.pop(following)
        link.received = following
        link.parts += message.rest
        if message.flag & 0x40:
            messages.append((link.own, link.parts))
            link.parts = b''
        following = (link.received + 1) % 4096
    return messages


PARTS = {0x18: connect, 0x68: connect, 0x28: confirm, 0x38: disconnect, 0x48: end, 4: data_ack}
