"""The counts that pages tell, each with the page, an expression whose one group is the count, and what gives it anew.

To add one, add a line to COUNTS. A blank of an expression stands for any white space, so it may go over the end of a line; the count stands
there in digits or as a word. An expression that is not found is a fault."""
import os
import re

import bodies
from costs import SECONDS
from words import number_of, told_as

TOP = os.path.dirname(os.path.dirname(os.path.dirname(os.path.abspath(__file__))))
TRIAL = re.compile(r'(.+?)(, version 2)?(, write cache)?: (.*), wrong \d+')


def text_of(path):
    """The text of a file of the repository."""
    with open(f'{TOP}/{path}', encoding='utf-8', errors='replace') as file:
        return file.read()


def crates(book):
    """How many crates there are."""
    return len(book.layers.named)


def layers(book):
    """How many layers there are, those of tests and benches among them."""
    return len(book.layers.crates)


def tests(book):
    """How many tests there are."""
    folders = [each for crate in book.layers.named for each in os.walk(f'{TOP}/crates/{crate}/src')]
    paths = [os.path.relpath(f'{at}/{it}', TOP) for at, _, files in folders for it in files if it.endswith('.rt')]
    return sum(len(re.findall(r'^ *#\[test\]$', text_of(it), re.MULTILINE)) for it in paths)




def bodies_here(book):
    """How many wrong bodies stand under bench/."""
    return sum(here for here, _ in bodies.counts(book).values())


def bodies_of_gate(book):
    """How many wrong bodies the gate tries."""
    return sum(gate for _, gate in bodies.counts(book).values())




def limit(name):
    """A limit of bench/budget."""

    def value(_):
        for names, values in re.findall(r'^([A-Z_, ]+) = ([\d, ]+)$', text_of('bench/budget'), re.MULTILINE):
            if name in names.split(', '):
                return int(values.split(', ')[names.split(', ').index(name)])
        raise KeyError(name)

    return value


def lists(version, what):
    """How many lists, or lines of them, `test_lists` carries out on a version."""
    return lambda _: int(re.search(rf'^version {version}: .*\b{what} (\d+)', text_of('crates/test_lists/stdout'), re.MULTILINE)[1])




def trials():
    """What `test_faults` prints: for each trial its name, whether it is on version 2 and on a write cache, and its numbers."""
    for name, second, cache, numbers in TRIAL.findall(text_of('crates/test_faults/stdout')):
        yield name, bool(second), bool(cache), {key: int(it) for key, it in re.findall(r'(\w+) (\d+)', numbers)}


def faults_of(what, is_cached, alone=None):
    """A sum over the trials of `test_faults`: of what they have on a write cache or without; of those for both versions, on version 1
    (alone is False), of those for version 2 alone (True), or of all on each version (None)."""

    def value(_):
        first = {name for name, second, _, _ in trials() if not second}
        chosen = [it for it in trials() if it[2] == is_cached and (alone is None or it[1] == alone and (not alone or it[0] not in first))]
        return sum(it[3][what] if what else 1 for it in chosen)

    return value


COUNTS = [
    ('docs/CONTRIBUTING.md', r'more than (\w+) exits', limit('MOST_EXITS')),
    ('docs/CONTRIBUTING.md', r'more than (\w+) behind a value', limit('MOST_BEHIND')),
    ('docs/CONTRIBUTING.md', r'counts more than (\d+) seconds', limit('MOST_SECONDS')),
    ('docs/CONTRIBUTING.md', r'at most (\d+) must-fail edits', limit('MOST_EDITS')),
    ('docs/CONTRIBUTING.md', r'at most (\w+) of a crate', limit('MOST_OF_CRATE')),
    ('docs/CONTRIBUTING.md', r'whose proof takes (\d+) seconds or more', limit('DEAR')),
    ('docs/CONTRIBUTING.md', r'the proof of `marks` takes (\d+)', lambda _: SECONDS),
    ('docs/MAP.md', r'the (\d+) crates', crates),
    ('docs/MAP.md', r'in (\w+) layers', layers),
    ('docs/TESTING.md', r'There are ([\d,]+) tests', tests),
    ('docs/TESTING.md', r'(\d+) wrong bodies; the gate', bodies_of_gate),
    ('docs/TESTING.md', r'(\d+) wrong bodies; `bench/wrong_bodies/run`', bodies_here),
    ('docs/TESTING.md', r'([\d,]+) lists of [\d,]+ commands on version 1', lists(1, 'lists')),
    ('docs/TESTING.md', r'[\d,]+ lists of ([\d,]+) commands on version 1', lists(1, 'lines')),
    ('docs/TESTING.md', r'([\d,]+) lists of [\d,]+ on version 2', lists(2, 'lists')),
    ('docs/TESTING.md', r'[\d,]+ lists of ([\d,]+) on version 2', lists(2, 'lines')),
    ('docs/TESTING.md', r'all later ones: ([\d,]+) runs and', faults_of('runs', False)),
    ('docs/TESTING.md', r'all later ones: [\d,]+ runs and ([\d,]+) stops', faults_of('stops', False)),
    ('docs/TESTING.md', r'([\d,]+) runs on a device with a write cache', faults_of('runs', True)),
    ('docs/TESTING.md', r'([\d,]+) images that a power cut may leave', faults_of('images', True)),
    ('docs/WRONG_BODIES.md', r'must-fail/NAME\.edit` \| (\d+)', bodies_of_gate),
    ('docs/WRONG_BODIES.md', r'bench/wrong_bodies/CRATE/NAME\.edit` \| (\d+)', bodies_here),
    ('docs/WRONG_BODIES.md', r'at most (\d+) stay', limit('MOST_EDITS')),
    ('docs/WRONG_BODIES.md', r'at most (\w+) in a crate', limit('MOST_OF_CRATE')),
    ('docs/WRONG_BODIES.md', r'whose proof takes below (\d+)', limit('DEAR')),
]


def compare(book, writes):
    """Compares the counts of the pages, or writes them anew."""
    for name, expression, value in COUNTS:
        page = book.pages.get(name)
        found = page and [*re.finditer(expression.replace(' ', r'\s+'), page.text, re.MULTILINE)]
        if not found:
            book.tell(name, 1, f'no count is found by {expression!r}')
            continue
        number = value(book)
        book.count('counts', len(found))
        for it in reversed(found):
            if number_of(it[1]) != number and writes:
                page.text = page.text[: it.start(1)] + told_as(number, it[1]) + page.text[it.end(1) :]
            elif number_of(it[1]) != number:
                book.tell(name, page.line_at(it.start(1)), f'{it[0]!r} stands there, and should be {told_as(number, it[1])}')
