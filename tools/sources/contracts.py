"""What contracts rest on: the functions of crates/ with their clauses, and the definitions that these name, followed as far as they lead.
tools/believed prints what a reader must believe of it, tools/claims what is claimed of a call."""
import re
from collections import namedtuple

from sources.items import all_code, all_definitions

NAMED = {name: crate for crate, names in {
    'pair_judge': 'judge judge_end',
    'pair_player': 'play',
    'capture': 'convert',
    'wire_tap': 'tap',
    'coverage': 'judge_covered',
    'printing': 'check_to alone_to',
    'why_answer': 'why_end_to',
    'text_commands': 'show_to convert_to play_to',
    'why_command': 'why_to',
    'cover_command': 'cover_pair print_covered',
    'draw_command': 'draw_rows_to',
    'tap_command': 'tap_to',
    'ddcap': 'help_to explain_to',
}.items() for name in names.split()}
Closure = namedtuple('Closure', 'definitions lines files whole used used_lines')


class Sources:
    """What is in crates/, and which names lead where."""

    def __init__(self):
        self.files = all_definitions()
        self.code = all_code()
        self.types, self.scopes = {}, {}
        for code in self.code:
            for each in code.types:
                self.types.setdefault((each.crate, each.name), []).append((code, each))
            for owner, member, words in code.ghosts:
                self.scopes.setdefault((code.crate, owner), []).append((code, member, words))
        self.exports = {code.crate: exported(code) for code in self.code if code.module in ('lib', 'main')}

    def defined(self, module, name):
        """The definition of a name of a file, or of a `data` of it, or None."""
        file = self.files.get(module)
        if not file:
            home, _, data = module.rpartition('.')
            return self.defined(home, data) if home in self.files else None
        name = file.constructors.get(name, name)
        return ('definition', module, name) if name in file.items else None

    def declared(self, module):
        """The type of the code that a module of declared names stands for, or None."""
        parts = module.split('.')
        names = [part for part in parts[4:] if part[0].isupper() and not part.startswith('The')]
        return ('type', parts[1], names[-1]) if parts[3] == 'declared' and names and (parts[1], names[-1]) in self.types else None

    def brought_in(self, imports, word):
        """What a word that a `use` line brings in stands for."""
        first, _, rest = word.partition('.')
        module, name = imports[first]
        if module.split('.')[2:4][1:] == ['declared']:
            return self.declared(module)
        return self.defined(module, name or rest.split('.')[0])

    def of_words(self, words, imports, module=None):
        """The definitions and types that words of a file name."""
        for word in words:
            for spelled in (word, '◌%s◌' % word):
                if spelled.split('.')[0] in imports:
                    yield self.brought_in(imports, spelled)
                elif module:
                    yield self.defined(module, spelled.split('.')[0])

    def of_code(self, code, words):
        """The definitions and types that words of a file of code name."""
        yield from self.of_words(words, code.imports)
        for word in words:
            name = word.split('.')[0]
            crate = next((path.split('::')[0] for _, path in code.rust_uses if re.search(r'\b%s\b' % re.escape(name), path)), 'crate')
            crate = code.crate if crate in ('crate', 'super') else crate
            if name not in code.imports and (crate, name) in self.types:
                yield ('type', crate, name)

    def below(self, node):
        """What a definition or a type rests on."""
        kind, place, name = node
        if kind == 'definition':
            file = self.files[place]
            yield from self.of_words(file.items[name].words, file.imports, place)
            return
        types = self.types[place, name]
        is_open = any(re.search(r'^ +pub \w+:|^(pub )?enum', each.text, re.MULTILINE) for _, each in types)
        seen = ('Value', 'view', 'inverse') if is_open else ('Value',)
        model = [(code, words) for code, member, words in self.scopes.get((place, name), []) if member in seen]
        for code, words in model or [(code, each.words) for code, each in types]:
            yield from self.of_code(code, words)

    def closure(self, nodes):
        reached, to_do = set(), [node for node in nodes if node]
        while to_do:
            node = to_do.pop()
            if node not in reached:
                reached.add(node)
                to_do += [each for each in self.below(node) if each]
        return {(place, name) for kind, place, name in reached if kind == 'definition'}

    def functions(self):
        """Each function that has a contract, with its file."""
        return [(code, function) for code in self.code for function in code.functions if function.clauses]

    def group(self, code, function):
        """1: a named call or a law; 2: another one that a library hands out; None: private."""
        if code.is_test or not function.is_pub:
            return None
        modules, names = self.exports[function.crate]
        is_out = function.module.split('.')[0] in modules or (function.owner or function.name) in names
        if not function.owner and NAMED.get(function.name) == function.crate or function.is_law and is_out:
            return 1
        return 2 if is_out else None

    def public(self):
        """Each public function that has a contract, with its file."""
        return [(code, function) for code, function in self.functions() if self.group(code, function)]

    def called(self, name):
        """The public functions of this name: NAME, TYPE::NAME, CRATE::NAME or CRATE::TYPE::NAME."""
        return [(code, function) for code, function in self.public()
                if ('::' + '::'.join(filter(None, (function.crate, function.owner, function.name)))).endswith('::' + name)
                or '%s::%s' % (function.crate, function.name) == name]

    def claims(self, group):
        """What the contracts of a group name."""
        return [node for code, function in self.functions() if self.group(code, function) == group for node in self.of_code(code, function.words)]

    def kept_inside(self):
        """What contracts of private functions, and all ghost members, name."""
        named = [node for code, function in self.functions() if not self.group(code, function) for node in self.of_code(code, function.words)]
        return named + [node for code in self.code for _, _, words in code.ghosts for node in self.of_code(code, words)]

    def used_by(self, files):
        """These files, and all that their `use` lines name in turn."""
        reached, to_do = set(), list(files)
        while to_do:
            module = to_do.pop()
            module = module if module in self.files else module.rpartition('.')[0]
            if module in self.files and module not in reached:
                reached.add(module)
                to_do += self.files[module].uses
        return reached

    def figured(self, definitions):
        files = {module for module, _ in definitions}
        used = self.used_by(files)
        whole, used_lines = [sum(lines_to_read(self.files[module].lines) for module in modules) for modules in (files, used)]
        return Closure(definitions, sum(self.lines_of(*each) for each in definitions), files, whole, used, used_lines)

    def lines_of(self, module, name):
        item = self.files[module].items[name]
        return lines_to_read(self.files[module].lines[item.start:item.end])


def exported(code):
    """The modules and the names that the root of a crate hands out."""
    return code.public_modules, {name for is_pub, path in code.rust_uses if is_pub for name in re.findall(r'\w+', path)}


def lines_to_read(lines):
    return sum(1 for line in lines if line.strip() and not line.startswith('use '))
