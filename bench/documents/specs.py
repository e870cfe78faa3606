"""What the definitions of a crate have: the files below specs/, each with the comment at its head and its public definitions."""
import os
import re

TOP = os.path.dirname(os.path.dirname(os.path.dirname(os.path.abspath(__file__))))
DEFINED = re.compile(r'(?:(abbrev|unfoldable|opaque) )?pub (?:(record|data) )?([^\s:{(]+)')


class Spec:
    """A file of definitions: its name, the comment at its head, and the names that it defines. What it proves is left out."""

    def __init__(self, name, lines):
        self.name = name
        head = next((at for at, it in enumerate(lines) if not it.startswith('-- ')), len(lines))
        self.comment = [it[3:] for it in lines[:head]]
        found = filter(None, map(DEFINED.match, lines))
        self.definitions = [it[3] for it in found if it[3] not in ('mod', 'use') and (it[1] or it[2])]


class Specs:
    """The definitions of a crate."""

    def __init__(self, crate):
        folder = f'{TOP}/crates/{crate}/specs'
        self.files = []
        for it in sorted(os.listdir(folder)) if os.path.isdir(folder) else []:
            if it.endswith('.antt') and it != 'Lib.antt':
                with open(f'{folder}/{it}', encoding='utf-8') as file:
                    self.files.append(Spec(it[: -len('.antt')], file.read().split('\n')))

    def names(self):
        """The names of all files and of all definitions."""
        return {it.name for it in self.files}.union(*(it.definitions for it in self.files))
