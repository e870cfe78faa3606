"""The committed table of what each crate costs the gate, bench/gate.table: seconds of a processor on which the crate of reference is
proved in a given time, and the lines of code that the crate had when that was measured."""
import os
import re
from collections import namedtuple

TOP = os.path.dirname(os.path.dirname(os.path.abspath(__file__)))
TABLE = f'{TOP}/bench/gate.table'
REFERENCE, SECONDS = 'marks', 42
HEAD = f"""# What the gate pays for each crate: its proof; its tests, with the crate once more; and its must-fail edits, with their seed. All are seconds of
# a processor on which the proof of `{REFERENCE}` takes {SECONDS}. Then the lines of code that it had. `bench/gate --note` writes this, bench/budget reads it.
"""

Cost = namedtuple('Cost', 'proof tests edits lines')


def files_in(folder):
    """The files of code below a folder."""
    return [f'{at}/{it}' for at, _, files in os.walk(folder) for it in files if it.endswith('.rt')]


def lines_of(name):
    """How many lines of code a crate has."""
    count = 0
    for path in files_in(f'{TOP}/crates/{name}/src'):
        with open(path, encoding='utf-8') as lines:
            count += sum(1 for _ in lines)
    return count


def listed():
    """The crates of crates.txt, lowest first, each with those that it names."""
    with open(f'{TOP}/crates.txt', encoding='utf-8') as lines:
        found = [re.match(r'([a-z]\w*)[^:#]*:(.*)', line) for line in lines]
    named = {it[1]: it[2].split() for it in found if it}
    return {crate: [it for it in below if it in named] for crate, below in named.items()}


def above(crate, crates):
    """A crate and those that stand on it."""
    found = {crate}
    for name, below in crates.items():
        if found.intersection(below):
            found.add(name)
    return found


def table_above(names):
    """The lines of a table that tells for each of these crates how many are proved again after a change of it, and what they cost."""
    crates, table = listed(), noted()
    lines = ['| A change of | proves again: crates | seconds | minutes on four processors, at least |', '|---|---|---|---|']
    for name in names:
        found = above(name, crates)
        seconds = sum(sum(table[it][:3]) for it in found if it in table)
        lines.append(f'| `{name}` | {len(found)} | {seconds:,} | {seconds / 240:.0f} |')
    return lines


def noted():
    """What the table tells of each crate."""
    table = {}
    if os.path.isfile(TABLE):
        with open(TABLE, encoding='utf-8') as lines:
            for line in lines:
                if not line.startswith('#'):
                    name, *numbers = line.split()
                    table[name] = Cost(*map(int, numbers))
    return table


def write(table):
    """Writes the table, scaled so that the crate of reference has its time."""
    scale = SECONDS / table[REFERENCE].proof
    with open(TABLE, 'w', encoding='utf-8') as out:
        out.write(HEAD)
        for name, cost in sorted(table.items()):
            out.write(f'{name} {scale * cost.proof:.0f} {scale * cost.tests:.0f} {scale * cost.edits:.0f} {cost.lines}\n')
