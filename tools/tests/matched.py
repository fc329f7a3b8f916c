"""Which files of crates/*/src match on the variants of an enum: a line has one in front of `=>`, in `matches!`, in `let`, or after an equals sign
that compares. A part of tools/tests/test_documents."""
import glob
import os
import re

TOP = os.path.dirname(os.path.dirname(os.path.dirname(os.path.realpath(__file__))))
OF_TESTS = '_rows', '_laws'  # crates that are no part of the program
COMMENT = re.compile(r'^\s*//.*$', re.MULTILINE)
# a variant, and what may come after it in a pattern
VARIANT = r'(?<!\w)%s::\w+'
MATCHED = r'{0}[^\n;]*=>|^\s*\| {0}|{0}[^\n;=]*\|$|matches!\([^\n;]*{0}|let [^\n;=]*{0}[^\n;=]*=(?!=)|[=!]= {0}'


def files_matching(enum):
    """The files of the program's crates that match on variants of this enum, as CRATE/FILE."""
    found = set()
    pattern = re.compile(MATCHED.format(VARIANT % enum), re.MULTILINE)
    for path in glob.glob(os.path.join(TOP, 'crates', '*', 'src', '**', '*.rt'), recursive=True):
        crate, _, file = os.path.relpath(path, os.path.join(TOP, 'crates')).partition(os.sep + 'src' + os.sep)
        with open(path) as text:
            if not crate.endswith(OF_TESTS) and pattern.search(COMMENT.sub('', text.read())):
                found.add('%s/%s' % (crate, file.removesuffix('.rt')))
    return found
