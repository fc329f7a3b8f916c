"""Where the labels of a picture of `ddcap draw --svg` are, as the picture itself reckons: how many letters a label has, times their advance in the
size that the picture's style gives its class. `faults(picture)` names each label that is upon another, leaves the picture, is on the frame of the
refused record or on a time line, or has an arrow through it; and each sign of an arrow that the key does not have."""
import re

SVG = '{http://www.w3.org/2000/svg}'
# of DejaVu Sans Mono, the widest of the usual fonts with letters of one width: parts of the size
ADVANCE, ABOVE, BELOW = 0.602, 0.77, 0.24
SIZE = re.compile(r'text(?:\.(\w+))? \{[^}]*?font(?:-size)?: (\d+)px')
SIGNS = 'bad', 'open', 'outside', 'hollow', 'lost'


def classes(element):
    return element.get('class', '').split()


def number(element, name):
    return float(element.get(name, 0))


def label_box(text, sizes):
    """The left, upper, right and lower edge of a label."""
    words, names = text.text or '', classes(text)
    size = next((sizes[name] for name in names if name in sizes), sizes[''])
    width, x, y = len(words) * ADVANCE * size, number(text, 'x'), number(text, 'y')
    left = x - width if 'end' in names else x - width / 2 if 'side' in names else x
    return left, y - ABOVE * size, left + width, y + BELOW * size


def meet(one, other):
    """Whether two boxes have a place in common."""
    return one[0] < other[2] and other[0] < one[2] and one[1] < other[3] and other[1] < one[3]


def rect_box(rect):
    x, y = number(rect, 'x'), number(rect, 'y')
    return x, y, x + number(rect, 'width'), y + number(rect, 'height')


def edges(box, breadth):
    """The four edges of a frame of this breadth."""
    left, top, right, bottom = box
    half = breadth / 2
    yield left - half, top - half, right + half, top + half
    yield left - half, bottom - half, right + half, bottom + half
    yield left - half, top - half, left + half, bottom + half
    yield right - half, top - half, right + half, bottom + half


def passes(line, box):
    """Whether a line goes through a box: what is left of it within the box, edge by edge."""
    x1, y1, x2, y2 = (number(line, name) for name in ('x1', 'y1', 'x2', 'y2'))
    low, high = 0.0, 1.0
    for start, way, least, most in (x1, x2 - x1, box[0], box[2]), (y1, y2 - y1, box[1], box[3]):
        if way == 0:
            if not least < start < most:
                return False
            continue
        first, last = sorted(((least - start) / way, (most - start) / way))
        low, high = max(low, first), min(high, last)
    return low < high


def is_key(element):
    return bool({'key', 'sign'} & set(classes(element)))


def faults(picture):
    """What is wrong with the labels and the key of a picture, a text each."""
    sizes = {name: int(size) for name, size in SIZE.findall(picture.find(SVG + 'style').text)}
    labels = sorted(((label_box(text, sizes), text.text) for text in picture.iter(SVG + 'text') if text.text), key=lambda label: label[0][1])
    width, height = number(picture, 'width'), number(picture, 'height')
    lines, rects = list(picture.iter(SVG + 'line')), [rect for rect in picture.iter(SVG + 'rect') if 'paper' not in classes(rect)]
    frames = [edge for rect in rects if 'refused' in classes(rect) for edge in edges(rect_box(rect), 2)]
    bars = [rect_box(rect) for rect in rects if 'refused' not in classes(rect)]
    for place, (box, words) in enumerate(labels):
        for other, other_words in labels[place + 1:]:
            if other[1] >= box[3]:
                break
            if meet(box, other):
                yield '%r is upon %r' % (other_words, words)
        if box[0] < 0 or box[1] < 0 or box[2] > width or box[3] > height:
            yield '%r leaves the picture' % words
        if any(meet(box, edge) for edge in frames):
            yield '%r is on the frame' % words
        if any(meet(box, bar) for bar in bars):
            yield '%r is on a time line' % words
        if any(passes(line, box) for line in lines):
            yield 'an arrow goes through %r' % words
    keyed = {name for element in picture.iter() if is_key(element) for name in classes(element)}
    for line in lines:
        for name in set(classes(line)) - keyed:
            yield 'the key has no %s' % name
    if any(not is_key(dot) for dot in picture.iter(SVG + 'circle')) and not any(is_key(dot) for dot in picture.iter(SVG + 'circle')):
        yield 'the key has no dot'
