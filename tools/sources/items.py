"""Reads the sources of crates/ as tools/believed needs them: of each file of definitions its items with the words that they name, of each file
of code its types, traits and functions with theirs. It knows the layout that `rt fmt` makes, and no more of either language."""
import glob
import os
import re
from collections import namedtuple

TESTS = 'dna_rows', 'pair_laws'
TOP = os.path.dirname(os.path.dirname(os.path.dirname(os.path.abspath(__file__))))
WORD = re.compile(r'''(?:[^\W\d]|[◌>=&|+*/<≤∷∈])[^\s(){}\[\],;:"'λ]*''')
USE = re.compile(r'^\s*(?:ghost )?use (Rattle\.[\w.]+?)(?:\.\{([^}]*)\}|(?: as (\w+))?);?$', re.MULTILINE)
HEAD = re.compile(r'^ *(?:(?:abbrev|unfoldable) (?:pub )?|(?:pub )?(?P<kind>record|data) |pub (?=[^\s:]+ :))(?P<name>[^\s:]+)')
BARE = re.compile(r'^(?!--)(?P<name>[^\s:(){}|=]+) :')
SECTION = re.compile(r'^module ')
FUNCTION = re.compile(r'^( *)(pub(?:\([^)]*\))? )?(?:const )?fn (\w+)', re.MULTILINE)
TYPE = re.compile(r'^(?:pub(?:\([^)]*\))? )?(struct|enum|trait) (\w+)', re.MULTILINE)
MEMBER = re.compile(r'^ +ghost (\w+)[^=;{]*[=:] (\{.*?\});$', re.MULTILINE | re.DOTALL)
CLAUSE = re.compile(r'\b(?P<kind>requires|ensures)\*?(?: (?P<name>\w+))?\s*$')
STRINGS = re.compile(r'"(?:[^"\\]|\\[\s\S])*"')
SILENT = re.compile(r'//.*|b?"(?:[^"\\]|\\[\s\S])*"|b?\'(?:[^\'\\\n]|\\.)\'')  # of a file of code: comments, texts and letters

Item = namedtuple('Item', 'module name kind start end text words')
Clause = namedtuple('Clause', 'kind name said text')
Function = namedtuple('Function', 'crate module line owner name is_pub is_law said clauses words')
Type = namedtuple('Type', 'crate name text words')


def without_comments(text):
    return re.sub(r'(?:^|(?<=\s))--.*', '', STRINGS.sub('""', text), flags=re.MULTILINE)


def imports(text):
    """What the `use` lines of a file bring in: for each name its module and its name there. A module by itself has no name there."""
    found = {}
    for module, names, alias in USE.findall(text):
        if not names:
            found[alias or module.split('.')[-1]] = (module, None)
        for name in names.split(','):
            if name.strip():
                there, _, here = name.strip().partition(' as ')
                found[here or there] = (module, there)
    return found


class Definitions:
    """A file of definitions."""

    def __init__(self, path):
        self.path = os.path.relpath(path, TOP)
        parts = self.path.split('/')
        self.crate, self.kind = parts[1], parts[2]
        self.name = 'Rattle.%s.%s.%s' % (self.crate, self.kind, '.'.join(parts[3:])[:-len('.antt')])
        with open(path) as opened:
            self.lines = opened.read().split('\n')[:-1]
        self.imports = imports('\n'.join(self.lines))
        self.uses = [module for module, _, _ in USE.findall('\n'.join(self.lines))]
        self.items = {}
        self.constructors = {}
        self.read_items()

    def read_items(self):
        starts, section = [], ''
        for at, line in enumerate(self.lines):
            if line and line[0] != ' ' and not line.startswith('--'):
                section = line if SECTION.match(line) else ''
            if SECTION.match(line):
                starts.append((at, None, None, ''))
            elif not line.startswith(('    ', 'use ', 'pub mod', 'mod ', 'infix')) and (not line.startswith(' ') or section):
                head = HEAD.match(line) or BARE.match(line.strip())
                if head:
                    starts.append((at, head['name'], head.groupdict().get('kind') or 'function', section))
        for (at, name, kind, above), behind in zip(starts, [start[0] for start in starts[1:]] + [len(self.lines)]):
            if name:
                self.add(name, kind, above, at, behind)

    def add(self, name, kind, section, at, behind):
        start, end = at, behind
        while start and self.lines[start - 1].lstrip().startswith(('--', 'infix')):
            start -= 1
        while end > at and (not self.lines[end - 1].strip() or self.lines[end - 1].lstrip().startswith(('--', 'infix', 'module '))):
            end -= 1
        text = without_comments('\n'.join(self.lines[at:end]))
        binds = {'>>='} if '←' in text else set()  # `do` goes by the bind that the file brings in
        self.items[name] = Item(self.name, name, kind, start, end, (section, text), set(WORD.findall(section + text)) | binds)
        if kind == 'data':
            for constructor in re.findall(r'^ +(?:pub )?([^\s:]+(?: [^\s:]+)*) :', text, re.MULTILINE):
                for each in constructor.split():
                    self.constructors[each] = name


def arguments(item):
    """How many explicit arguments a definition takes, those of its section included."""
    section, text = item.text
    head = re.split(r'\n(?=\s*%s\b[^:]*=)| where$' % re.escape(item.name), text, flags=re.MULTILINE)[0].partition(item.name)[2]
    binders, signature = split(head, ':')[:2]
    return named_in(section) + named_in(binders) + sum(counted(part) for part in split(signature, '→')[:-1])


def split(text, letter):
    """The parts of a text between the places of a letter that are in no bracket."""
    parts, depth = [''], 0
    for each in text:
        depth += (each in '({[') - (each in ')}]')
        if each == letter and not depth:
            parts.append('')
        else:
            parts[-1] += each
    return parts


def counted(part):
    """The explicit arguments before one arrow."""
    part = re.sub(r'\{[^{}]*\}', '', part).strip()
    return named_in(part) or (1 if part else 0)


def named_in(text):
    """How many names the explicit binders of a text have."""
    found, depth, at = 0, 0, 0
    for place, letter in enumerate(text):
        if letter in '({' and not depth:
            at = place
        depth += (letter in '({') - (letter in ')}')
        if letter == ')' and not depth and ' : ' in text[at:place]:
            found += len(text[at + 1:place].split(' : ')[0].split())
    return found


def signature_end(whole, text, at):
    """Where the head of a function with its clauses ends, and the clauses, of a text of which `text` is what is not silent."""
    clauses, depth, begun = [], 0, at
    while at < len(text):
        letter = text[at]
        if letter in '([':
            depth += 1
        elif letter in ')]':
            depth -= 1
        elif letter == ';' and not depth:
            return at, clauses
        elif letter == '{' and not depth:
            heading = CLAUSE.search(text[begun:at])
            if not heading:
                return at, clauses
            end = closed(text, at)
            said = said_before(whole, begun + heading.start(), '// ')
            clauses.append(Clause(heading['kind'], heading['name'] or '', said, whole[at:end]))
            at = begun = end
            continue
        at += 1
    return at, clauses


def said_before(text, at, mark):
    """The comment that comes before a place, a list of lines; attributes may come between."""
    said = []
    for line in reversed(text[:at].rpartition('\n')[0].splitlines()):
        line = line.strip()
        if line.startswith(mark):
            said.insert(0, line[len(mark):].strip())
        elif said or not line or line.endswith(('{', '}', ';')):
            break
    return said


def silenced(match):
    """As many blanks; a text keeps its quotes."""
    return '"%s"' % (' ' * (len(match[0]) - 2)) if '"' in match[0][:2] else ' ' * len(match[0])


def closed(text, at):
    """After the brace that closes the one at a place."""
    depth = 0
    for place in range(at, len(text)):
        depth += (text[place] == '{') - (text[place] == '}')
        if not depth:
            return place + 1
    return len(text)


class Code:
    """A file of code."""

    def __init__(self, path):
        self.path = os.path.relpath(path, TOP)
        parts = self.path.split('/')
        self.crate, self.module = parts[1], '.'.join(parts[3:])[:-len('.rt')]
        self.is_test = self.crate in TESTS or 'tests' in self.module.split('.')
        with open(path) as opened:
            self.whole = opened.read()
        self.imports = imports(self.whole)
        text = SILENT.sub(silenced, self.whole)
        self.rust_uses = re.findall(r'^(pub )?use ([^;]*);', text, re.MULTILINE)
        self.public_modules = re.findall(r'^pub mod (\w+);', text, re.MULTILINE)
        self.types, self.functions, self.ghosts = [], [], []
        self.read(text)

    def read(self, text):
        owners = [(0, '', False)]
        for match in re.finditer(r'^(?:(?:pub )?(trait) (\w+)|impl\b[^{]*)', text, re.MULTILINE):
            closing = re.compile(r'^\}|\{\}$', re.MULTILINE).search(text, match.end())
            end = closing.end() if closing else len(text)
            owner, is_trait = (match[2], True) if match[1] else (implemented(match[0]), ' for ' in match[0])
            owners += [(match.start(), owner, is_trait), (end, '', False)]
            for member, value in [] if match[1] else MEMBER.findall(text[match.start():end]):
                self.ghosts.append((owner, member, set(WORD.findall(value))))
        for match in TYPE.finditer(text):
            self.types.append(self.type_at(text, match))
        for match in FUNCTION.finditer(text):
            end, clauses = signature_end(self.whole, text, match.start())
            if clauses:
                place = max(each for each in owners if each[0] <= match.start())
                self.functions.append(self.function_at(text[match.start():end], match, clauses, place))

    def type_at(self, text, match):
        line_end = (text + '\n').index('\n', match.end())
        is_short = text[match.start():line_end].endswith((';', '{}'))
        end = re.compile(r'^[})]', re.MULTILINE).search(text, match.start())
        body = text[match.start():line_end if is_short or not end else end.end()]
        return Type(self.crate, match[2], body, set(WORD.findall(body)) | set(re.findall(r'\w+', body)))

    def function_at(self, head, match, clauses, place):
        _, owner, in_trait = place
        signature = re.split(r'\b(?:requires|ensures)\b', head[match.end() - match.start():])[0]
        is_law = '->' not in signature and '&mut' not in signature and not owner
        words = set(WORD.findall(' '.join(words_of(clause) for clause in clauses))) | set(re.findall(r'\w+', signature))
        line = self.whole.count('\n', 0, match.start()) + 1
        is_pub = match[2] == 'pub ' or in_trait
        said = said_before(self.whole, match.start(), '///')
        return Function(self.crate, self.module, line, owner, match[3], is_pub, is_law, said, clauses, words)


def words_of(clause):
    """What is in a clause, without comments and texts."""
    return SILENT.sub(silenced, clause.text)


def implemented(head):
    """The type of an `impl`."""
    head, depth, at = head[len('impl'):], 0, 0
    while head[at] == '<' or depth:
        depth += (head[at] == '<') - (head[at] == '>' and head[at - 1] != '-')
        at += 1
    return re.match(r'\W*(?:\w+::)*(\w*)', head[at:].split(' for ')[-1].strip())[1]


def all_definitions():
    paths = glob.glob(os.path.join(TOP, 'crates/*/specs/**/*.antt'), recursive=True)
    return {each.name: each for each in map(Definitions, sorted(paths))}


def all_code():
    paths = glob.glob(os.path.join(TOP, 'crates/*/src/**/*.rt'), recursive=True)
    return [Code(path) for path in sorted(paths)]
