"""What pages cite of the code: a span with `::` is a function, a law, a type or a definition of a crate, and what follows it up to the end of
its sentence or cell belongs to it.

A citation begins with a path, `crate::function`, `crate::module::function` or `crate::Type::function`; `Type::function` is of the crate cited
last in the sentence, or else of the one crate that has such a type. Each plain name behind it is a clause or a premise of the functions before
it, of each of those that no clause and no semicolon parts from it; or a further function, law, type or definition of the same crate, one of the
same type first; or another crate, if no clause of this one has its name, or a type of another one, which are cited from there on. What begins
in parentheses ends with them. Spans with anything but letters and digits are not looked at, nor `crate::..`, which shows the form."""
import re

from sources import module_of

PAGES = ('README.md', 'docs/CONTRACTS.md', 'docs/TRUST.md', 'docs/TESTING.md', 'docs/GLOSSARY.md')
TOKEN = re.compile(r'`([^`]*)`|[.!?](?=[\s)*]|$)|[;()]')
PATH = re.compile(r'\w+(?:::\w+)*')


class Index:
    """What may be cited of all crates, by name."""

    def __init__(self, book):
        self.book, self.functions, self.types = book, {}, {}
        for crate in book.crates.values():
            for it in crate.functions:
                self.functions.setdefault((crate.name, it.name), []).append(it)
            for it in crate.types:
                self.types.setdefault(it.name, []).append(it)
        self.defined = {}
        self.clauses = {(it.crate, name) for found in self.functions.values() for it in found for name in it.clauses}

    def defines(self, crate, name):
        """Whether a crate's definitions have a name."""
        if crate not in self.defined:
            self.defined[crate] = self.book.specs[crate].names()
        return name in self.defined[crate]

    def of_crate(self, crate, name, owner=''):
        """The functions of a crate that have a name, those of a type first; or its type of this name. None if there is neither."""
        found = self.functions.get((crate, name), [])
        types = [it for it in self.types.get(name, []) if it.crate == crate]
        return [it for it in found if it.owner == owner] or found or types or None

    def crates_of(self, words):
        """The crates that have a type, and in it what a path names."""
        return sorted({it.crate for it in self.types.get(words[0], []) if self.at([it.crate, *words]) is not None})

    def at(self, words):
        """What a path of a crate leads to, also by what the crate shows of another one. An empty list is a definition, and None is nothing."""
        crate, *words = words
        other = self.book.crates[crate].exports.get(words[0], '').partition('::')[0]
        if other in self.book.crates and f'{other}.rt' not in self.book.crates[crate].texts:
            crate = other
        *before, name = words
        found = self.of_crate(crate, name, before[-1] if before else '') or []
        if before and words[0] != 'specs':
            found = [it for it in found if getattr(it, 'owner', '') == before[-1] or module_of(it.file) == '::'.join(before)]
            is_part = any(name in it.parts for it in self.types.get(before[-1], []) if it.crate == crate)
        else:
            is_part = self.defines(crate, name) or name in map(module_of, self.book.crates[crate].texts)
        return found or ([] if is_part else None)


class Citation:
    """What a sentence has cited so far."""

    def __init__(self, index):
        self.index, self.crate, self.owner, self.group, self.open = index, None, '', [], True
        self.depth, self.begin = 0, 0

    def part(self, mark):
        """Takes a mark between two spans, which may end what was cited."""
        self.depth += (mark == '(') - (mark == ')')
        self.open = self.open and mark != ';'
        if mark in '.!?' or self.depth < self.begin:
            self.crate, self.owner, self.group, self.begin = None, '', [], 0

    def take(self, text):
        """Takes the next span, and tells what is wrong with it, if anything is."""
        words = text.split('::')
        if words[0] == 'crate':
            return None
        if len(words) > 1:
            return self.path(text, words)
        return None if self.crate is None or self.is_clause(text) or self.is_name(text) else f'`{text}` is nothing of {self.of()}'

    def path(self, text, words):
        """Takes a path."""
        if words[0] not in self.index.book.crates:
            crates = self.index.crates_of(words)
            if self.crate not in crates and len(crates) != 1:
                return f'`{text}` is of no crate' if not crates else f'`{text}` may be of {" or ".join(crates)}'
            words = [self.crate if self.crate in crates else crates[0], *words]
        found = self.index.at(words)
        if found is None:
            return f'`{text}` is nothing of {words[0]}'
        self.begin = min(self.begin, self.depth) if self.crate else self.depth
        self.crate, self.group, self.open = found[0].crate if found else words[0], found, True
        self.owner = getattr(found[0], 'owner', '') if found else ''
        return None

    def is_clause(self, text):
        """Takes a clause of what stands before it."""
        names = [{*it.ghosts} if hasattr(it, 'ghosts') else {*it.clauses, *it.premises} for it in self.group]
        if names and all(text in it for it in names):
            self.open = False
            return True
        return False

    def is_name(self, text):
        """Takes another function, law, type or definition."""
        found = self.index.of_crate(self.crate, text, self.owner)
        if found is None and self.index.defines(self.crate, text):
            return True
        if found is None and text in self.index.book.crates and (self.crate, text) not in self.index.clauses:
            found, self.crate = [], text
        if found is None and len(others := self.index.types.get(text, [])) == 1:
            found, self.crate = others, others[0].crate
        if found is None:
            return False
        self.group = [*self.group, *found] if self.open else found
        self.owner, self.open = getattr(found[0], 'owner', '') if found else '', True
        return True

    def of(self):
        """What a clause would be of."""
        names = sorted({f'{it.owner}::{it.name}' if getattr(it, 'owner', '') else it.name for it in self.group})
        return f'{", ".join(names)} of {self.crate}' if names else self.crate


def texts(page):
    """The paragraphs, items and cells of a page, each with its first line; examples and what is generated are left out."""
    begin, lines, left_out = 1, [], page.not_by_hand()
    for at, line in enumerate([*page.lines, '']):
        is_row = line.startswith('|')
        if lines and (is_row or at in left_out or not line.strip() or re.match(r' *(?:[-*]|\d+\.) |#', line)):
            yield begin, '\n'.join(lines)
            lines = []
        if is_row and at not in left_out:
            for cell in line.split('|'):
                yield at + 1, cell
        elif at not in left_out and line.strip() and not line.startswith('    '):
            begin = begin if lines else at + 1
            lines.append(line)


def compare(book):
    """Compares what the pages cite with the code."""
    index = Index(book)
    for page in [book.pages[it] for it in PAGES if it in book.pages]:
        for begin, text in texts(page):
            citation = Citation(index)
            for token in TOKEN.finditer(text):
                if token[1] is None:
                    citation.part(token[0])
                elif PATH.fullmatch(token[1]):
                    book.count('clauses', citation.crate is not None or '::' in token[1])
                    if wrong := citation.take(token[1]):
                        book.tell(page.name, begin + text.count('\n', 0, token.start()), wrong)
