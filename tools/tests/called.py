"""The program as calls of a library: lib/texts.c with the same assembly of dist/, by tools/tests/called.c. To start the program takes much longer
than a small answer, so tests that ask much call it where DDCAP_LIBRARY names that library (tools/tests/program.py). A file is a text then: what is
named among the words is read before, and what was written is put there after."""
import ctypes
import os
import subprocess
from collections import namedtuple

TOP = os.path.dirname(os.path.dirname(os.path.dirname(os.path.realpath(__file__))))
MOST_WORDS = 8  # so many texts with a name a run may have (lib/texts.h)


class Called:
    """The library. Threads may call at the same time."""

    def __init__(self, path):
        self.library = library = ctypes.CDLL(path)
        run, size = ctypes.c_void_p, ctypes.c_size_t
        for call, result, arguments in (
                ('begin', run, []), ('give', ctypes.c_bool, [run, ctypes.c_char_p, ctypes.c_char_p, size]),
                ('answer', ctypes.c_int32, [run, ctypes.POINTER(ctypes.c_char_p), size]), ('count', size, [run]),
                ('name', ctypes.c_char_p, [run, size]), ('bytes', ctypes.c_void_p, [run, size]), ('length', size, [run, size]),
                ('is_written', ctypes.c_bool, [run, size]), ('end', None, [run])):
            getattr(library, call).restype, getattr(library, call).argtypes = result, arguments

    def answer(self, words, texts):
        """The answer to these words, over texts by their names."""
        library, run, words = self.library, self.library.begin(), [os.fsencode(word) for word in words]
        try:
            if not all([library.give(run, os.fsencode(name), content, len(content)) for name, content in texts.items()]):
                raise MemoryError('a text is not taken: %r' % words)
            status = library.answer(run, (ctypes.c_char_p * len(words))(*words), len(words))
            made = {os.fsdecode(library.name(run, at)): self.text(run, at) for at in range(2, library.count(run)) if library.is_written(run, at)}
            return Answer(self.text(run, 0), self.text(run, 1), status, made)
        finally:
            library.end(run)

    def text(self, run, number):
        """The bytes of a text, by its number."""
        length = self.library.length(run, number)
        return ctypes.string_at(self.library.bytes(run, number), length) if length else b''


def made(folder):
    """The path of the library, made in this folder of dist/ for the machine of the compiler CC."""
    path = os.path.join(folder, 'called.so')
    script = 'top=$1 && . "$top/tools/build/origin.sh" && link_called "$(machine_of ${CC:-cc})" "$2" ${CC:-cc}'
    subprocess.run(['bash', '-c', script, 'called', TOP, path], check=True)
    return path


class Answer(namedtuple('Answer', 'out err status made')):
    """What the program printed to both streams, its status, and the texts that it wrote, by their names."""

    def write(self, folder):
        """Puts what was written where the program would have put it."""
        for name, content in self.made.items():
            with open(os.path.join(folder, name), 'wb') as file:
                file.write(content)

    def is_written(self, folder):
        """Whether the same is there."""
        return all(content_of(os.path.join(folder, name)) == content for name, content in self.made.items())


def content_of(path):
    with open(path, 'rb') as file:
        return file.read()


def texts_of(words, folder):
    """What the files hold that these words name, by their names; None where one names no file and nothing that could be made one, or where two
    name the same."""
    texts, places = {}, set()
    if len(words) > MOST_WORDS or not all(isinstance(word, str) and word and '\0' not in word for word in words):
        return None
    for word in set(words):
        path = os.path.join(folder, word)
        try:
            place = os.stat(path)
            place = place.st_dev, place.st_ino
        except OSError:
            place = os.path.normpath(path)
            if os.path.lexists(path) or not os.path.isdir(os.path.dirname(path)):
                return None
        else:
            if not os.path.isfile(path) or not os.access(path, os.R_OK | os.W_OK):
                return None
            texts[word] = content_of(path)
        if place in places:
            return None
        places.add(place)
    return texts
