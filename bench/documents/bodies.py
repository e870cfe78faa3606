"""How many wrong bodies each crate has, as docs/WRONG_BODIES.md tells it."""
import os

from words import wrapped

TOP = os.path.dirname(os.path.dirname(os.path.dirname(os.path.abspath(__file__))))


def count_in(folder):
    """How many wrong bodies stand in a folder, if there is one."""
    return sum(it.endswith('.edit') for it in os.listdir(folder)) if os.path.isdir(folder) else 0


def counts(book):
    """How many wrong bodies of each crate stand under bench/, and how many the gate tries."""
    return {it: (count_in(f'{TOP}/bench/wrong_bodies/{it}'), count_in(f'{TOP}/crates/{it}/must-fail')) for it in book.layers.named}


def by_crate(book, _):
    """The paragraphs of the page."""
    found = counts(book)
    some = [f'`{it}` {here}' + (f'+{gate}' if gate else '') for it, (here, gate) in found.items() if here or gate]
    none = [f'`{it}`' for it, both in found.items() if both == (0, 0) and not book.layers.is_leaf(it)]
    first = f'So many each crate has, those that the gate tries behind a `+`: {", ".join(some)}.'
    return [*wrapped(first), '', *wrapped(f'None: {", ".join(none)}.')]
