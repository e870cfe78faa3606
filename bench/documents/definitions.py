"""The index at the end of docs/DEFINITIONS.md: for each crate its files of definitions, each with the first sentence at its head, and the
names that begin with a capital letter: what may hold, records and kinds of data. Rows are left out, which show what definitions give."""
from words import cut, first_sentence, wrapped

# A longer sentence is cut at its first colon or semicolon; and one that is longer still at its first comma.
MOST, MOST_WITH_COMMAS = 60, 60
WITHOUT = ('Rows', 'Samples')
HEAD = """Each line has a file below `crates/CRATE/specs`, what it says, and those of its names that begin with a capital letter."""


def has(spec):
    """What a file has, by its own text."""
    sentence = first_sentence(spec.comment)
    sentence = cut(sentence, MOST) or sentence
    return cut(sentence, MOST_WITH_COMMAS, ',') or sentence


def index(book, _):
    """The lines of the index."""
    lines = [HEAD, '']
    for crate, specs in book.specs.items():
        files = [it for it in specs.files if it.definitions and it.name not in WITHOUT]
        if files and not book.layers.is_leaf(crate):
            lines += [f'### {crate}', '']
            for it in files:
                names = ' '.join(each for each in it.definitions if each[:1].isupper() and each != it.name)
                lines += wrapped(f'- `{it.name}`: {has(it)}' + (f' `{names}`' if names else ''), '  ')
            lines.append('')
    return lines[:-1]
