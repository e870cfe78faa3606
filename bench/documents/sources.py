"""What the code of a crate has: its functions with their clauses and bodies, its types, and what of both other crates may name.

The files are read line by line: `rt fmt` gives each item of a file, and each one of an `impl` or a trait, a line of its own at the
column 0 or 4, its clauses stand four columns further in, and its last line begins at its own column."""
import os
import re
from collections import namedtuple

TOP = os.path.dirname(os.path.dirname(os.path.dirname(os.path.abspath(__file__))))
ITEM = re.compile(r'( {4})?(pub(?:\(\w+\))? )?(?:const |unsafe )*(fn|struct|enum|trait|type|const) (\w+)')
CLAUSE = re.compile(r' *(ensures|requires)\*?(?: (\w+))? \{')
GHOST = re.compile(r' {4}(?:pub )?ghost (\w+)(: | = )')
PART = re.compile(r' {4}(?:pub(?:\(\w+\))? )?(\w+)(?::|[,({ ]|$)')
EXPORT = re.compile(r'^pub use ([\w:]+?)(?:::\{([^}]*)\})?;', re.MULTILINE)

# A function: the crate, the file below src, the line, the type or trait that it is of, its name, whether it is `pub` (or of a `pub`
# trait), the lines of its comment, the names of its `ensures` and of its `requires` (None for one without), and the lines of its body.
Function = namedtuple('Function', 'crate file line owner name is_pub doc clauses premises body')
# A type, a trait or a constant: its invariants, its laws and the words that clauses have of it are its ghosts, its fields and variants its parts.
Type = namedtuple('Type', 'crate file line kind name is_pub doc ghosts parts')


def module_of(file):
    """The module that a file is: `a::b` for a/b.rt, and '' for the crate's own."""
    return '' if file in ('lib.rt', 'main.rt') else file[: -len('.rt')].replace('/', '::')


def past_angles(text):
    """A text behind the parameters in angles with which it begins, if it does."""
    depth = 0
    for at, letter in enumerate(text):
        depth += (letter == '<') - (letter == '>' and text[at - 1] != '-')
        if depth == 0:
            return text[at + 1 :] if text.startswith('<') else text
    return ''


class File:
    """One file of code, and what was read of it."""

    def __init__(self, crate, file, lines):
        self.crate, self.file, self.lines = crate, file, lines
        self.functions, self.types = [], []
        self.owner, self.is_pub_owner, self.doc, self.type = '', False, [], None
        at = 0
        while at < len(lines):
            at = self.step(at)

    def step(self, at):
        """Reads what stands at a line, and gives the line to go on with."""
        line = self.lines[at]
        if line[:1] == '}':
            self.owner, self.doc, self.type = '', [], None
        elif line.startswith(('///', '    ///')):
            self.doc.append(line.strip()[4:])
        elif line.startswith(('#[', '    #[')):
            pass
        elif line.startswith('impl'):
            return self.begin_impl(at)
        elif found := ITEM.match(line):
            return self.item(at, found)
        else:
            if self.owner and (ghost := GHOST.match(line)):
                self.note_ghost(ghost)
            elif self.type and (part := PART.match(line)):
                self.type.parts.append(part[1])
            self.doc = []
        return at + 1

    def begin_impl(self, at):
        """Notes whose functions follow. Those of a trait that a type has are not `pub` of themselves."""
        end = at
        while not self.lines[end].endswith(('{', '{}')):
            end += 1
        head = past_angles(' '.join(it.strip() for it in self.lines[at : end + 1])[len('impl') :]).strip()
        trait, parted, of_type = head.partition(' for ')
        name = re.match(r'(?:&(?:\'\w+ )?)?(?:\w+::)*(\w+)', of_type if parted else trait)
        self.owner, self.is_pub_owner, self.doc = name[1] if name else '?', False, []
        if self.lines[end].endswith('{}'):
            self.owner = ''
        return end + 1

    def note_ghost(self, ghost):
        """Notes an invariant of a type, or a law or a word of a trait."""
        for it in self.types:
            if it.name == self.owner and (ghost[2] == ': ' or ghost[1] == 'invariant'):
                it.ghosts.append(ghost[1])

    def item(self, at, found):
        """Reads an item with its name."""
        indented, public, kind, name = found.groups()
        is_pub = public == 'pub '
        doc, self.doc = self.doc, []
        if kind == 'fn':
            return self.function(at, len(indented or ''), is_pub, name, doc)
        if not indented:
            self.types.append(Type(self.crate, self.file, at + 1, kind, name, is_pub, doc, [], []))
            if kind != 'const' and not self.lines[at].endswith((';', '}')):
                self.owner, self.is_pub_owner, self.type = name, is_pub and kind == 'trait', self.types[-1]
        return at + 1

    def function(self, at, column, is_pub, name, doc):
        """Reads a function to its end: its clauses, and where its body stands."""
        clauses, begin, end, margin = {'ensures': [], 'requires': []}, None, at, ' ' * column
        for end in range(at, len(self.lines)):
            line = self.lines[end]
            if begin is None and line.startswith((f'{margin}    ensures', f'{margin}    requires')) and (found := CLAUSE.match(line)):
                clauses[found[1]].append(found[2])
            if begin is None and end > at and line.startswith(f'{margin}{{') or self.begins_body(line, margin):
                begin = end
            if line.startswith(f'{margin}}}') or line == f'{margin}{{}}' or end == at and line.endswith(('}', ';')):
                break
            if begin is None and line.endswith(';') and self.declares(end):
                break
        of = self.owner if column else ''
        is_pub = is_pub or bool(of) and self.is_pub_owner
        body = (end + 1 if begin is None else begin + 1, end + 1)
        self.functions.append(Function(self.crate, self.file, at + 1, of, name, is_pub, doc, *clauses.values(), body))
        return end + 1

    @staticmethod
    def begins_body(line, margin):
        """Whether the head of a function without clauses ends in this line."""
        return line.endswith('{') and line.startswith(margin) and line[len(margin) : len(margin) + 1] not in (' ', '')

    def declares(self, end):
        """Whether a function of a trait ends at a line: nothing of it follows."""
        behind = self.lines[end + 1] if end + 1 < len(self.lines) else '}'
        return behind.strip() == '' or not behind.startswith('        ')


class Crate:
    """The code of a crate."""

    def __init__(self, name):
        self.name, self.texts, self.functions, self.types = name, {}, [], []
        folder = f'{TOP}/crates/{name}/src'
        for at, _, files in sorted(os.walk(folder)):
            for it in sorted(files):
                if it.endswith('.rt') and it != 'tests.rt':
                    self.read(os.path.relpath(f'{at}/{it}', folder))
        self.root = 'lib.rt' if 'lib.rt' in self.texts else 'main.rt'
        self.read_exports()

    def read(self, file):
        """Reads a file."""
        with open(f'{TOP}/crates/{self.name}/src/{file}', encoding='utf-8') as text:
            self.texts[file] = text.read().split('\n')
        found = File(self.name, file, self.texts[file])
        self.functions += found.functions
        self.types += found.types

    def read_exports(self):
        """Reads which modules and which names of them the crate shows."""
        text = '\n'.join(self.texts.get(self.root, []))
        self.modules = {'', *re.findall(r'^pub mod (\w+);', text, re.MULTILINE)}
        self.exports = {}
        for path, names in EXPORT.findall(text):
            if not names:
                path, _, names = path.rpartition('::')
            for it in filter(None, map(str.strip, names.split(','))):
                self.exports[it.split(' as ')[0]] = path

    def shows(self, item):
        """Whether other crates may name an item that is `pub`."""
        module = module_of(item.file)
        return item.is_pub and (module in self.modules or self.exports.get(item.name) == module)

    def public_functions(self):
        """The functions that other crates may call, in the order of files and lines."""
        types = {it.name for it in self.types if self.shows(it)}
        for it in self.functions:
            if it.is_pub and (it.owner in types if it.owner else self.shows(it)):
                yield it

    def head(self):
        """The comment at the head of the crate."""
        lines = self.texts.get(self.root, [])
        return [it[4:] for it in lines[: next((at for at, it in enumerate(lines) if not it.startswith('//!')), len(lines))]]

    def body(self, function):
        """The text of a function's body."""
        begin, end = function.body
        return '\n'.join(self.texts[function.file][begin:end])
