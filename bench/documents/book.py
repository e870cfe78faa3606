"""The pages, the crates with their code and definitions, each read once, and the faults that were found."""
import os
from functools import cached_property

from layers import Layers
from pages import Page
from sources import Crate
from specs import Specs

TOP = os.path.dirname(os.path.dirname(os.path.dirname(os.path.abspath(__file__))))


class Book:
    """All that bench/docs compares."""

    def __init__(self):
        self.layers = Layers()
        names = ['README.md', *(f'docs/{it}' for it in sorted(os.listdir(f'{TOP}/docs')) if it.endswith('.md'))]
        self.pages = {it: Page(TOP, it) for it in names}
        self.faults, self.counted = [], {}
        for page in self.pages.values():
            for line, text in page.faults:
                self.tell(page.name, line, text)

    @cached_property
    def crates(self):
        """The code of each crate."""
        return {it: Crate(it) for it in self.layers.named}

    @cached_property
    def specs(self):
        """The definitions of each crate."""
        return {it: Specs(it) for it in self.layers.named}

    def tell(self, page, line, text):
        """Notes a fault."""
        self.faults.append((page, line, text))

    def count(self, what, number=1):
        """Counts what was compared."""
        self.counted[what] = self.counted.get(what, 0) + number
