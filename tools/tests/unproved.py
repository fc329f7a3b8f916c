"""The crates of tools/tests/rattle, which test, play and measure: over the libraries of crates/, built with checks and not proved. A file
`X.rt.txt` or `X.antt.txt` there is X.rt or X.antt, since the gate takes sources in crates/ alone; `uses.txt` is their list of crates."""
import os
import re
import shutil
import subprocess
import tempfile

TOP = os.path.dirname(os.path.dirname(os.path.dirname(os.path.realpath(__file__))))
RATTLE = os.path.join(TOP, 'tools', 'tests', 'rattle')
CASE = re.compile(r'^case=(\S+) run=(.*) proved=no$', re.MULTILINE)


def read(*path):
    """The text of a file, or none."""
    try:
        with open(os.path.join(*path)) as text:
            return text.read()
    except FileNotFoundError:
        return None


def uses():
    """The libraries of the repository and of the toolchain that each of these crates uses."""
    lines = [line.partition(':') for line in read(RATTLE, 'uses.txt').splitlines() if line and not line.startswith('#')]
    return {name: libraries.split() for name, _, libraries in lines}


def place(folder, is_left_out=shutil.ignore_patterns('out')):
    """Makes a repository in this folder, which has the crates of crates/ and these."""
    shutil.copytree(os.path.join(TOP, 'crates'), os.path.join(folder, 'crates'), ignore=is_left_out, dirs_exist_ok=True)
    shutil.copy(os.path.join(TOP, 'HANDLES'), folder)
    with open(os.path.join(folder, 'crates.txt'), 'w') as text:
        text.write(read(TOP, 'crates.txt') + read(RATTLE, 'uses.txt'))
    for crate in uses():
        for inner, _, names in os.walk(os.path.join(RATTLE, crate)):
            here = os.path.join(folder, 'crates', os.path.relpath(inner, RATTLE))
            os.makedirs(here, exist_ok=True)
            for name in names:
                shutil.copy(os.path.join(inner, name), os.path.join(here, name.removesuffix('.txt')))
    subprocess.run(['git', '-C', folder, 'init', '-q'], check=True)


def tried(folder, crate, *words, text=None):
    """What `rt try` with these words does in a crate of such a repository; its input is this text."""
    return subprocess.run(['rt', 'try', *words], cwd=os.path.join(folder, 'crates', crate), input=text or '', capture_output=True, text=True)


def answered(folder, crate, cases, *words):
    """What a program prints in each case, and None where it does not end with status 0; it is built once. A case is a name, the words that
    the program gets and its input."""
    room = tempfile.mkdtemp(dir=folder)
    for name, given, text in cases:
        for path, content in (name, text), (name + '.args', ''.join(word + '\n' for word in given)):
            with open(os.path.join(room, path), 'w') as file:
                file.write(content)
    done = tried(folder, crate, *words, '--cases', room)
    shutil.rmtree(room)
    ended = {name for name, run in CASE.findall(done.stderr) if run.startswith('ended status=0 ')}
    parts = re.split(r'^== (\S+)\n', done.stdout, flags=re.MULTILINE)
    said = dict(zip(parts[1::2], parts[2::2]))
    if not CASE.search(done.stderr):
        print('%s: %s' % (crate, done.stderr[-2000:]))
    return {name: said.get(name, '') if name in ended else None for name, _, _ in cases}
