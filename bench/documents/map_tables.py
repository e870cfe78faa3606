"""The tables of docs/MAP.md: for each layer, the highest first, its crates, what each has by the first sentence at its head, and which
crates of tests and benches name it."""
from layers import LEAVES
from words import cut, first_sentence

# A longer sentence is cut at its first colon or semicolon.
MOST = 160


def has(crate):
    """What a crate has, by its own text."""
    sentence = first_sentence(crate.head())
    return cut(sentence, MOST) or cut(sentence, len(sentence) - 1) or sentence


def tables(book, _):
    """The lines of the tables."""
    layers, lines = book.layers, []
    for layer, crates in reversed(layers.crates.items()):
        is_leaf = layer in LEAVES
        lines += [f'## {layer}: {layers.titles[layer]}', '']
        lines += ['| Crate | What it has |', '|---|---|'] if is_leaf else ['| Crate | What it has | Tested by |', '|---|---|---|']
        for crate in crates:
            by = [it for it, named in layers.named.items() if layers.is_leaf(it) and crate in named]
            tested = ' '.join(it.removeprefix(LEAVES['TESTS']) for it in by)
            lines.append(f'| `{crate}` | {has(book.crates[crate])} |' + ('' if is_leaf else f' {tested} |' if tested else ' |'))
        lines.append('')
    return lines[:-1]
