"""What a side is that has a station and no links, of a pair or alone. A part of tools/reading/judging.py, which judges pairs apart from the
program."""
from reading.links import NO_TAG


class WithoutLinks:
    """A side of the line alone: packets are not read, and the links' events are nothing."""

    def user(self, words):
        if len(words) == 1:
            super().user(words)

    def boots_links(self):
        pass

    def meets(self, text):
        return NO_TAG

    def kept(self, text, label):
        pass

    def ends(self):
        return super().ends().partition(' links')[0]
