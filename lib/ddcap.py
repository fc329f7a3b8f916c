"""Judges captures of a DDCMP line between two DECnet nodes, as the program ddcap does, without running it.

    >>> import ddcap
    >>> ddcap.alone('ddcap 1 1.1 1.2\\nu start\\n').is_accepted
    True

This one file and libddcap.so are all it takes (`tools/build/library` makes that). The library is looked for where the variable LIBDDCAP says, beside
this file, in the folder out/ of the repository, where the Debian package has it, and where the system has its libraries. Threads may judge at the
same time. docs/CAPTURES.md says what a capture is. A capture, or the text of a wire, is given as a text (`str` or `bytes`), as a file that is open to
be read, whose rest is taken, or as a `pathlib.Path`. A `str` is never the name of a file."""
import ctypes
import json as _json
import os
from collections import namedtuple

_LINE, _JSON, _QUEUED, _ALL = 1, 2, 4, 8


class Answer(namedtuple('Answer', 'status text')):
    """What the program answers: `status` is 0 for accepted (or passed), 1 for refused, 2 where a text is no capture, 3 where there is no memory.
    `text` is what it prints."""
    __slots__ = ()

    @property
    def is_accepted(self):
        """Whether the captures obey the rules; of one end, as far as one end shows."""
        return self.status == 0

    @property
    def is_refused(self):
        """Whether they do not."""
        return self.status == 1

    def parts(self):
        """Of an answer with `json=True` its objects; docs/KEYS.md has their keys. A fault is an object of `check` and `alone` alone."""
        return [_json.loads(line) for line in self.text.split('\n') if line.startswith('{')]


class Tapped(namedtuple('Tapped', 'status text a b')):
    """What `tap` answers: `status` is 0 for accepted, 1 for unexplained or apart, 2 where the text is not that of a wire, 3 where there is no memory.
    `text` is what it prints, and `a` and `b` are the captures, empty where none were made."""
    __slots__ = ()
    is_accepted = Answer.is_accepted
    parts = Answer.parts


class _Answer(ctypes.Structure):
    _fields_ = [('status', ctypes.c_int), ('length', ctypes.c_size_t), ('text', ctypes.POINTER(ctypes.c_char))]


def _loaded():
    here = os.path.dirname(os.path.abspath(__file__))
    folders = [here, os.path.join(here, '..', 'out'), os.path.join(here, '..', '..', 'ddcap')]
    paths = [os.environ.get('LIBDDCAP')] + [os.path.join(folder, 'libddcap.so') for folder in folders]
    path = next((path for path in paths if path and os.path.exists(path)), 'libddcap.so')
    try:
        library = ctypes.CDLL(path)
    except OSError as error:
        raise ImportError('libddcap.so is not there, or is for another machine; tools/build/library makes it, and LIBDDCAP names it: %s'
                          % error) from error
    text = [ctypes.c_char_p, ctypes.c_size_t]
    for name, texts in ('check', 2), ('alone', 1), ('why', 2):
        call = getattr(library, 'ddcap_' + name)
        call.argtypes = text * texts + [ctypes.c_uint, ctypes.POINTER(_Answer)]
        call.restype = ctypes.c_int
    library.ddcap_tap.argtypes = text + [ctypes.c_uint] + 3 * [ctypes.POINTER(_Answer)]
    library.ddcap_tap.restype = ctypes.c_int
    library.ddcap_free.argtypes = [ctypes.POINTER(_Answer)]
    library.ddcap_free.restype = None
    return library


_LIBRARY = _loaded()


def _content(given):
    """The bytes of a text, of an open file, or of the file that a path names; None of None."""
    if isinstance(given, os.PathLike):
        with open(given, 'rb') as file:
            return file.read()
    text = given.read() if hasattr(given, 'read') else given
    return text.encode() if isinstance(text, str) else text


def _text(got):
    return ctypes.string_at(got.text, got.length).decode('utf-8', 'replace')


def _answer(call, texts, choices):
    arguments = []
    for text in texts:
        content = _content(text)
        arguments += [content, len(content or b'')]
    got = _Answer()
    call(*arguments, choices, ctypes.byref(got))
    try:
        return Answer(got.status, _text(got))
    finally:
        _LIBRARY.ddcap_free(ctypes.byref(got))


def _choices(line, json, queued, all):
    return (_LINE if line else 0) | (_JSON if json else 0) | (_QUEUED if queued else 0) | (_ALL if all else 0)


def check(a, b, line=False, json=False, queued=False, all=False):
    """Judges the captures of both ends of a line, as `ddcap check A B`. With `queued` the nodes may have a queue between NSP and DDCMP, as most real
    nodes have: what waits there may be out of date when it is sent. With `line` DDCMP is judged alone, without links: never both. With `json` the
    answer is one object. With `all` all refusals are told, and not the first alone.

    >>> check('ddcap 1 1.1 1.2\\nu start\\n', 'ddcap 1 1.2 1.1\\n', json=True).parts()[0]['what']
    'accepted'
    """
    return _answer(_LIBRARY.ddcap_check, [a, b], _choices(line, json, queued, all))


def alone(a, line=False, json=False, queued=False, all=False):
    """Judges the capture of one end without the other, as `ddcap alone A`, with the same choices.

    >>> alone('ddcap 1 1.1 1.2\\nu start\\n', queued=True).is_accepted
    True
    """
    return _answer(_LIBRARY.ddcap_alone, [a], _choices(line, json, queued, all))


def why(a, b=None, line=False, json=False, queued=False, all=False):
    """Tells why two captures are refused, or one, as `ddcap why A B`, with the same choices. With `json` each part is an object on a line of its
    own: `why(..).parts()`."""
    return _answer(_LIBRARY.ddcap_why, [a, b], _choices(line, json, queued, all))


def tap(wire, line=False, json=False):
    """Makes both captures of the text of a wire, as `ddcap tap WIRE A B`; docs/WIRE.md says what that is.

    >>> tap('ddwire 1 1.1 1.2\\na 0506c00000017595\\n').a
    'ddcap 1 1.1 1.2\\nu start\\ns 0506c00000017595\\n'
    """
    content, got = _content(wire), [_Answer() for _ in range(3)]
    _LIBRARY.ddcap_tap(content, len(content), _choices(line, json, False, False), *map(ctypes.byref, got))
    try:
        return Tapped(got[0].status, *map(_text, got))
    finally:
        for each in got:
            _LIBRARY.ddcap_free(ctypes.byref(each))
