"""The part of docs/CONTRACTS.md that goes crate by crate: the public functions and laws with the names of their clauses.

A line has one function, `FUNCTION (CLAUSE..): what it does`, by the first sentence of its comment, if that is short. Functions of a type
or module that have the same clauses, and no such sentence, share a line. Those with one clause without a name, and no such sentence, stand
behind `also:`. Types with invariants, and traits with words and laws, have their names in the place of clauses."""
import itertools

from words import cut, first_sentence, wrapped

# How many characters a sentence has at most: of a law, which is not cut; of what has a name to cite; and of anything else.
MOST_OF_LAW, MOST_NAMED, MOST_ALONE = 160, 62, 0


HEAD = """Each line has a public function or law, the names of its clauses in parentheses, and what it does by the first sentence of its comment. Types
with invariants and traits with laws stand first in their crate, with these names in parentheses, and laws stand last. A function without a
list has one clause without a name, or none. [MAP.md](MAP.md) says what each crate has, and [DEFINITIONS.md](DEFINITIONS.md) what the words of
clauses mean."""


def is_law(crate, function):
    """Whether a function takes nothing and gives nothing, so that it says something and does nothing."""
    head = crate.texts[function.file][function.line - 1]
    return not function.owner and '->' not in head and head.rstrip(' {}').endswith('()')


def titles_of(items):
    """How items are named, those of one type that stand together by one name of it."""
    found = []
    for owner, group in itertools.groupby(items, key=lambda it: getattr(it, 'owner', '')):
        names = [it.name for it in group]
        if owner and len(names) > 1:
            found.append(f'`{owner}::{{{", ".join(names)}}}`')
        else:
            found += [f'`{owner}::{it}`' if owner else f'`{it}`' for it in names]
    return ', '.join(found)


class Part:
    """The lines of one crate."""

    def __init__(self, crate):
        self.crate, self.rows, self.also, self.shared = crate, [], [], {}
        functions = list(crate.public_functions())
        order = {it: at for at, it in reversed(list(enumerate(it.owner for it in functions)))}
        for it in sorted(crate.types, key=lambda it: order.get(it.name, len(order))):
            if it.ghosts and crate.shows(it):
                self.add(it, it.ghosts)
        laws = [it for it in functions if is_law(crate, it)]
        for it in sorted(functions, key=lambda it: (it in laws, not it.owner, order[it.owner])):
            self.add(it, [name for name in it.clauses if name], it in laws)

    def add(self, item, names, is_law=False):
        """Adds a function or a type with the names to cite."""
        sentence = first_sentence(item.doc)
        if not is_law:
            sentence = cut(sentence, MOST_NAMED if names else MOST_ALONE)
        elif len(sentence) > MOST_OF_LAW:
            sentence = ''
        key = (getattr(item, 'owner', ''), *names)
        if not names and not sentence:
            self.also.append(item)
        elif not sentence and key in self.shared:
            self.rows[self.shared[key]][0].append(item)
        else:
            if not sentence:
                self.shared[key] = len(self.rows)
            self.rows.append(([item], ' '.join(names), sentence))

    def lines(self):
        """The lines, with the crate's heading."""
        found = [f'## `{self.crate.name}`', '']
        for items, names, sentence in self.rows:
            text = f'- {titles_of(items)}' + (f' (`{names}`)' if names else '') + (f': {sentence}' if sentence else '')
            found += wrapped(text, '  ')
        if self.also:
            found += wrapped(f'- also: {titles_of(self.also)}', '  ')
        return [*found, '']


def crate_by_crate(book, _):
    """The lines of all crates but those of tests and benches, and the names of all others."""
    lines, without, leaves = [*HEAD.split('\n'), ''], [], []
    for crate in book.crates.values():
        part = Part(crate)
        if book.layers.is_leaf(crate.name):
            leaves.append(f'`{crate.name}`')
        elif any(it.clauses for it in crate.public_functions()):
            lines += part.lines()
        else:
            without.append(f'`{crate.name}`')
    lines += ['## Without clauses', '']
    lines += wrapped(f'- {", ".join(without)}: total and safe. What is done to a volume there is promised by the calls that are made.', '  ')
    lines += wrapped(f'- Tests, and programs for tests and benches: {", ".join(leaves)}.', '  ')
    return lines
