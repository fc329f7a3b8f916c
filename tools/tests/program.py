"""The built program, ddcap run as a person does, and libraries to preload into it. These settings say how it is tried:
- DDCAP_PROGRAM: the program. Without it, the one that ./ddcap makes and runs.
- DDCAP_LIBRARY: the same program as a library, made by link_called of tools/build/origin.sh, by which it is called in the place of being started.
  For one call in 16 the program is started too, and has to answer the same.
- DDCAP_EMULATED: what runs it for another machine: `qemu`, whose libraries are made by the compiler CC, and which preloads them; or `wine`, which
  preloads none, and has no devices.
- DDCAP_QUICK: nothing that takes the toolchain, and of cases that are alike a sample, which is drawn by this text; by an emulator a share of each
  list alone."""
import functools
import os
import random
import shutil
import subprocess
import zlib

from tests.called import Called, texts_of

TOP = os.path.dirname(os.path.dirname(os.path.dirname(os.path.realpath(__file__))))
PROVED = os.path.join(TOP, 'crates', 'ddcap', 'out', 'ddcap')
EMULATED = os.environ.get('DDCAP_EMULATED')
IS_WINDOWS = EMULATED == 'wine'
SHARE = 20 if EMULATED and 'DDCAP_QUICK' in os.environ else 1  # of all lists one in so many is tried
MOST_SECONDS = 1800 if EMULATED else 600  # a run that takes longer hangs
ONE_IN = 10 * SHARE if EMULATED else 1  # and of the longest lists, since an emulator takes long to start
IS_QUICK = 'DDCAP_QUICK' in os.environ and not EMULATED  # where it is EMULATED the share is sample enough
SEED = os.environ['DDCAP_QUICK'] if IS_QUICK else ''  # of all that is drawn by chance
HAS_TOOLCHAIN = 'DDCAP_QUICK' not in os.environ and shutil.which('rt') is not None


def chosen():
    """The program that is tried."""
    if 'DDCAP_PROGRAM' in os.environ:
        return os.path.join(TOP, os.environ['DDCAP_PROGRAM'])
    # makes it where it isn't made yet, so that nothing is said of that later
    subprocess.run([os.path.join(TOP, 'ddcap')], stdin=subprocess.DEVNULL, stdout=subprocess.DEVNULL, stderr=subprocess.DEVNULL)
    fits = subprocess.run([os.path.join(TOP, 'tools', 'build', 'snapshot'), 'check'], stdout=subprocess.DEVNULL).returncode == 0
    return os.path.join(TOP, 'out', 'ddcap') if fits else PROVED


PROGRAM = chosen()
CALLED = Called(os.path.join(TOP, os.environ['DDCAP_LIBRARY'])) if os.environ.get('DDCAP_LIBRARY') and not EMULATED else None
ONE_STARTED = 16  # of the calls of the library one in so many is drawn
ONE_BY_FEW = 16  # and of cases in a quick test as many, to be read by few bytes a call


def is_drawn(one_in, *texts):
    """Whether a case of these texts, which are bytes, is one of so many: by the seed and the texts alone, so the same each time."""
    return functools.reduce(lambda sum_, text: zlib.crc32(text, sum_), texts, zlib.crc32(SEED.encode())) % one_in == 0


def run_bytes(*words, cwd='.'):
    """What the program prints to both streams, and its status. Where it is called, one in ONE_STARTED is started too."""
    texts = texts_of(words, cwd) if CALLED else None
    if texts is None:
        return started(words, cwd=cwd)
    answer = CALLED.answer(words, texts)
    if not is_drawn(ONE_STARTED, *(os.fsencode(os.path.basename(word)) for word in words), *texts.values()):
        answer.write(cwd)
        return answer[:3]
    got = started(words, cwd=cwd)
    if got != answer[:3] or not answer.is_written(cwd):
        raise AssertionError('%s: as a library the program answers otherwise: %r, and started: %r' % (' '.join(words), answer, got))
    return got


def run(*words, cwd='.'):
    """The same with what is printed as text."""
    return as_text(run_bytes(*words, cwd=cwd))


def started(words, **given):
    """What the program prints that is started, and its status; standard input is empty where none is given."""
    done = subprocess.run([PROGRAM, *words], **{'stdin': subprocess.DEVNULL, 'timeout': MOST_SECONDS, **given}, capture_output=True)
    return done.stdout, done.stderr, done.returncode


def as_text(answer):
    """An answer whose lines end with a newline alone, as text."""
    out, err = (text.decode().replace('\r\n', '\n').replace('\r', '\n') for text in answer[:2])
    return out, err, answer[2]


def library(folder, name):
    """The library of tools/tests/NAME.c, made in this folder; an OSError where no C compiler makes it."""
    path = os.path.join(folder, name + '.so')
    source = os.path.join(TOP, 'tools', 'tests', name + '.c')
    made = subprocess.run([os.environ.get('CC', 'cc'), '-O1', '-shared', '-fPIC', '-o', path, source], capture_output=True, text=True)
    if made.returncode:
        raise OSError('%s: %s' % (source, made.stderr))
    return path


def share(cases, one_in=1):
    """Those cases that are tried: all, or a share of them; where only little time is to be spent, a sample."""
    return sample(list(cases)[::SHARE], one_in)


def sample(cases, one_in):
    """Those of many cases that are alike which are tried: all, or, where only little time is to be spent, of so many that follow one another one
    that is drawn."""
    cases = list(cases)
    if not IS_QUICK:
        return cases
    chance = random.Random('%s %d' % (SEED, len(cases)))
    return [chance.choice(cases[at:at + one_in]) for at in range(0, len(cases), one_in)]


def by(*counts, of=''):
    """By how many bytes a call something is tried, where None is all: these counts, or all alone where calls can't be cut short, and for most texts
    where only little time is to be spent."""
    return (None,) if IS_WINDOWS or IS_QUICK and not is_drawn(ONE_BY_FEW, of.encode()) else counts


def can_be_given(words):
    """Whether the program's system can have these words: Windows has no devices by these names, opens no folder, and takes words as text."""
    return not IS_WINDOWS or not any(isinstance(word, bytes) or word == '.' or word.startswith('/dev/') for word in words)


def preloading(path):
    """The setting by which the program preloads this library."""
    return {'QEMU_SET_ENV': 'LD_PRELOAD=' + path} if EMULATED else {'LD_PRELOAD': path}


class Program:
    """The program. Each of its reads and writes moves at most `few` bytes where that is given; `calls` are further settings of
    tools/tests/calls.c. Where it is for files and devices that matter it is always started."""

    def __init__(self, folder, is_always_started=False):
        self.folder, self.is_always_started = folder, is_always_started

    @functools.cached_property
    def calls(self):
        """The library that settings are read by; made when it is first asked for."""
        return None if IS_WINDOWS else library(self.folder, 'calls')

    def run(self, *words, few=None, **calls):
        """What it prints to both streams, and its status."""
        if few:
            calls['FEW_BYTES'] = few
        if not calls and not self.is_always_started:
            return run(*words)
        env = dict(os.environ, **{name: str(value) for name, value in calls.items()}, **(preloading(self.calls) if calls else {}))
        return as_text(started(words, env=env))

    def count_calls(self, *words, few=None, file):
        """How many reads and writes of this file it makes."""
        told = os.path.join(self.folder, 'calls')
        self.run(*words, few=few, FAIL_FILE=file, COUNT_CALLS=told)
        with open(told) as number:
            return int(number.read())
