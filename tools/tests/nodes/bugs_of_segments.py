"""Bugs in segments, acknowledgements, delivery and addresses. The words are those of docs/REASONS.md."""
from tests.nodes import small_sessions as at
from tests.nodes.bugs import bug
from tests.nodes.small_node import BEGINS, ENDS, Node, word

# ---- segments


class Numbered(Node):
    """Segments have other numbers."""

    def segment(self, link, number):
        message = super().segment(link, number)
        place = 7 if message[6] & 0x80 else 5
        return message[:place] + self.number(link, number) + message[place + 2:]


@bug(20, 'segment numbers begin at 0', at.quiet)
class SegmentsFromZero(Numbered):
    def number(self, link, number):
        return word(number - 1)


@bug(20, 'segment numbers begin at 2', at.quiet)
class SegmentsFromTwo(Numbered):
    def number(self, link, number):
        return word(number + 1)


@bug(20, 'SEGNUM has its high byte first', at.quiet)
class SegmentTurned(Numbered):
    def number(self, link, number):
        return word(number)[::-1]


@bug(20, 'segments of all links are counted together', at.quiet)
class CountedTogether(Numbered):
    def number(self, link, number):
        return word(sum(each.given for each in self.links) % 4096)


@bug(20, 'a reused address keeps its segment numbers', at.links_again)
class SegmentsGoOn(Numbered):
    def number(self, link, number):
        return word(number + sum(each.given for each in self.links if each is not link and each.own == link.own))


@bug(20, 'a segment that is sent again has a new number', at.restarted)
class NewNumberAgain(Node):
    def segment(self, link, number):
        if number < link.given:
            self.give_segment(link, link.segments[number])
        return super().segment(link, link.given)


@bug(20, 'a data acknowledgement uses up a segment number', at.quiet)
class AckCounts(Node):
    def data_ack(self, link):
        link.given += 1
        link.segments[link.given] = 0, b''
        return super().data_ack(link)


class Flagged(Node):
    """Pieces have other flag bytes."""

    def piece(self, link):
        piece = super().piece(link)
        return piece and (self.flag(piece[0]), piece[1])


@bug(20, 'the begin bit is missing', at.quiet)
class NoBegin(Flagged):
    def flag(self, flag):
        return flag & ~BEGINS


@bug(20, 'the end bit is missing', at.quiet)
class NoEnd(Flagged):
    def flag(self, flag):
        return flag & ~ENDS


@bug(20, 'each piece has both bits', at.quiet)
class BothBits(Flagged):
    def flag(self, flag):
        return BEGINS | ENDS


@bug(20, 'an empty piece follows a full last piece', at.quiet)
class EmptyPiece(Node):
    def piece(self, link):
        if getattr(link, 'is_to_end', False):
            link.is_to_end = False
            return ENDS, b''
        piece = super().piece(link)
        if piece and piece[0] & ENDS and len(piece[1]) == link.size:
            link.is_to_end = True
            return piece[0] & ~ENDS, piece[1]
        return piece


@bug(20, 'a message that is sent again is cut elsewhere', at.restarted)
class CutAnew(Node):
    def segment(self, link, number):
        if number < link.given:
            flag, body = link.segments[number]
            link.segments[number] = flag & ~ENDS, body[:-1]
        return super().segment(link, number)


@bug(20, 'a segment that is sent again has different data', at.restarted)
class DataChanged(Node):
    def segment(self, link, number):
        if number < link.given:
            flag, body = link.segments[number]
            link.segments[number] = flag, body[::-1] + b'.'
        return super().segment(link, number)


@bug(20, 'an acknowledgement word before SEGNUM lacks bit 15 and is read as SEGNUM', at.quiet)
class WordAsNumber(Node):
    def segment(self, link, number):
        message = super().segment(link, number)
        # a number that the other end acknowledged: another one it might keep, and deliver
        return message[:6] + bytes([message[6] & 0x7f]) + message[7:] if link.received <= link.acknowledged else message


# ---- acknowledgements of segments


class Acknowledging(Node):
    """Acknowledgement words have other numbers."""

    def ack_word(self, link):
        super().ack_word(link)
        return word(0x8000 | self.acknowledges(link) % 4096)


@bug(21, 'the next expected number is acknowledged', at.quiet)
class AcknowledgesNext(Acknowledging):
    def acknowledges(self, link):
        return link.received + 1


@bug(21, 'a number after a gap is acknowledged', at.restarted)
class AcknowledgesOverGap(Acknowledging):
    def acknowledges(self, link):
        return max([link.received, *link.held])


@bug(21, 'a number of another link is acknowledged', at.quiet)
class AcknowledgesAnother(Acknowledging):
    def acknowledges(self, link):
        return self.links[-1].received if len(self.links) > 1 else link.received


@bug(21, 'the last number sent is acknowledged', at.quiet)
class AcknowledgesOwn(Acknowledging):
    def acknowledges(self, link):
        return link.given


@bug(21, 'a reused address keeps its acknowledgement numbers', at.links_again)
class AcknowledgesOn(Acknowledging):
    def acknowledges(self, link):
        return sum(each.received for each in self.links if each.own == link.own)


# ---- sizes and windows


@bug(22, 'the node goes by its own SEGSIZE', at.quiet)
class OwnSize(Node):
    SIZE = 40

    def size_of(self, link):
        return self.SIZE


@bug(22, 'the length of the NSP header is added to SEGSIZE', at.quiet)
class HeaderOnTop(Node):
    def size_of(self, link):
        return link.size + 9


@bug(22, 'SEGSIZE has its high byte first', at.quiet)
class SizeTurned(Node):
    def size_of(self, link):
        return (link.size & 255) << 8 | link.size >> 8


@bug(23, 'there is no limit on unacknowledged segments', at.silent)
class NoSegmentWindow(Node):
    def may_give_segment(self, link):
        return True


# ---- delivery


@bug(24, 'a message that arrives again is delivered again', at.restarted)
class DeliveredAgain(Node):
    def come_segment(self, link, number, flag, body):
        if number <= link.received and flag == BEGINS | ENDS:
            self.deliver(link, body)
        super().come_segment(link, number, flag, body)


@bug(24, 'each piece is delivered alone', at.quiet)
class PieceDelivered(Node):
    def take_segment(self, link, flag, body):
        self.deliver(link, body)


@bug(24, 'a message after a gap is delivered', at.restarted)
class DeliveredOverGap(Node):
    def come_segment(self, link, number, flag, body):
        if number > link.received + 1 and flag == BEGINS | ENDS:
            self.deliver(link, body)
        super().come_segment(link, number, flag, body)


@bug(24, 'an empty message is not delivered', at.quiet)
class EmptyNotDelivered(Node):
    def deliver(self, link, message):
        if message:
            super().deliver(link, message)


@bug(24, 'a message is delivered on the wrong link', at.quiet)
class DeliveredElsewhere(Node):
    def deliver(self, link, message):
        super().deliver(self.links[-1], message)


@bug(24, 'the last byte of a message is lost', at.quiet)
class LastByteLost(Node):
    def deliver(self, link, message):
        super().deliver(link, message[:-1])


# ---- addresses


@bug(26, 'an address is reused before the DC has arrived', at.opened_while_closing)
class GivenEarly(Node):
    def free_address(self, is_opened):
        taken = [link.own for link in self.links if link.phase not in ('DI', 'Ended')]
        return next(own for own in range(1, 65536) if own not in taken)


@bug(26, 'addresses of opened and of called links are counted separately', at.quiet)
class CountedApart(Node):
    def free_address(self, is_opened):
        taken = [link.own for link in self.links if link.phase != 'Ended' and link.is_opened == is_opened]
        return next(own for own in range(1, 65536) if own not in taken)
