"""The walks of docs/WALKS.md: each function that a row names stands in the file that it names, and but for the first of a walk it is
called by one that the walk named before, or by a function of the same crate which that one leads to. Calls are told by names, and
comments of bodies are not looked at."""
import re
from functools import lru_cache

ROW = re.compile(r'\| `(\w+)/([\w/]+\.rt)` \| ((?:`[\w:]+`(?:, )?)+) \|')


def steps(book, page):
    """The rows, by walks: each with its line, its crate, its file and its functions."""
    walks = []
    for number, line in enumerate(page.lines, 1):
        if line.startswith('## '):
            walks.append([])
        elif walks and (row := ROW.match(line)):
            walks[-1].append((number, row[1], row[2], re.findall(r'`([\w:]+)`', row[3])))
        elif re.match(r'\|[^|]*\.rt`', line):
            book.tell(page.name, number, f'{line[:60]!r} is no row `crate/file.rt`, `function`..')
    return walks


def named(book, crate, file, name):
    """The functions of a file that have this name, or this name of a type."""
    owner, _, name = name.rpartition('::')
    functions = book.crates[crate].functions if crate in book.crates else []
    return [it for it in functions if it.file == file and it.name == name and owner in ('', it.owner)]


@lru_cache(maxsize=None)
def words(crate, file, begin, end):
    """The words of the lines of a body."""
    return frozenset(re.findall(r'\w+', re.sub('//.*', '', '\n'.join(crate.texts[file][begin:end]))))


def called(book, functions):
    """The words of the bodies of these functions, and of those of their crates that they lead to."""
    found, left = set(), list(functions)
    seen = {(it.crate, it.file, it.line) for it in left}
    while left:
        it = left.pop()
        crate = book.crates[it.crate]
        own = words(crate, it.file, *it.body)
        found |= own
        for other in crate.functions:
            key = (other.crate, other.file, other.line)
            if other.name in own and key not in seen:
                seen.add(key)
                left.append(other)
    return found


def compare(book):
    """Compares the walks with the code."""
    page = book.pages['docs/WALKS.md']
    for walk in steps(book, page):
        before = []
        for number, crate, file, names in walk:
            for name in names:
                book.count('steps of walks')
                functions = named(book, crate, file, name)
                if not functions:
                    book.tell(page.name, number, f'{crate}/{file} has no function {name}')
                elif before and name.rpartition('::')[2] not in called(book, before):
                    book.tell(page.name, number, f'nothing that this walk named before calls {name} of {crate}/{file}')
                before += functions
