"""What capture format 3 has besides: boots, calls that are given up, packets that are lost above DDCMP, packets that were composed and are never
sent, and events of interrupts, which are carried. The rows of a boot and of a call that is given up are among those of the stations and the links
(tools/reading/links.py, tools/reading/queues.py); here are the others. A part of tools/reading/judging.py, which judges pairs apart from the
program."""


def event_carried(side, words):
    """An event of an interrupt: it is always allowed."""


def lost_above(side, unit, tag):
    """A packet is lost above the station: the station takes it, and the links do not meet it."""
    side.station.gets(unit, tag, True)


def composed(side, text):
    """A packet that was composed and is never sent: the links make the row of a first sending."""
    side.meets(bytes.fromhex(text))
