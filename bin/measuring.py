"""Measures what a run of the gate pays for each crate, in seconds of a processor: each command of the toolchain's runs under `one`, which
notes what it took."""
import contextlib
import os
import re
import subprocess
import sys
import time

KINDS = ('proof', 'tests', 'seed', 'edits')
ONE = '--one'


def one(measures, words):
    """Runs a command of the toolchain's, notes what it took, and ends as it ended."""
    start = time.time()
    child = subprocess.Popen(words)
    _, status, used = os.wait4(child.pid, 0)
    with open(measures, 'a') as out:
        text = ' '.join(words).replace('\t', ' ').replace('\n', ' ')
        print(f'{used.ru_utime + used.ru_stime:.2f}\t{time.time() - start:.2f}\t{used.ru_maxrss}\t{os.getcwd()}\t{text}', file=out)
    if os.WIFSIGNALED(status):
        os.kill(os.getpid(), os.WTERMSIG(status))
    sys.exit(os.WEXITSTATUS(status))


def under_measure(rt, measures):
    """Has each command that the toolchain starts from now on run under `one`."""
    guarded = rt.rtlib.guarded
    rt.rtlib.guarded = lambda: [*guarded(), sys.executable, os.path.abspath(__file__), ONE, measures]


@contextlib.contextmanager
def whole(measures):
    """Notes what all that is done within took by the clock, and what this process itself took."""
    start, own = time.time(), time.process_time()
    yield
    with open(measures, 'a') as out:
        print(f'whole\t{time.time() - start:.2f}\t{time.process_time() - own:.2f}', file=out)


def kind_of(folder, words):
    """What a command of the toolchain's was for: a kind of work, and the number of an edit, if it was one."""
    if '/rt-edit-' not in folder:
        return ('tests' if ' --test ' in f'{words} ' else 'proof'), None
    over = re.search(r'--incremental \S*/(seed|\d+)(?: |$)', words)
    if over and over[1] == 'seed':
        return 'seed', None
    return 'edits', int(over[1]) if over else 0


def paid(measures):
    """For each crate the seconds of each kind of work; of each edit its seconds, crate and number; and the seconds of the whole, by the clock and of rt itself."""
    crates, edits, of_whole = {}, [], None
    with open(measures) as lines:
        for line in lines:
            parts = line.rstrip('\n').split('\t')
            if parts[0] == 'whole':
                of_whole = float(parts[1]), float(parts[2])
                continue
            seconds, folder, words = float(parts[0]), parts[3], parts[4]
            name = re.search(r'--crate-name (\w+)', words)
            kind, number = kind_of(folder, words)
            name = name[1] if name else os.path.basename(folder)
            crate = crates.setdefault(name, dict.fromkeys(KINDS, 0.0))
            crate[kind] += seconds
            if number is not None:
                edits.append((seconds, name, number))
    return crates, edits, of_whole


def rows(crates):
    """A table of what was paid, the dearest crate first, as lines."""
    lines = ['| Crate | all | ' + ' | '.join(KINDS) + ' |', '|---|---|' + '---|' * len(KINDS)]
    for name, crate in sorted(crates.items(), key=lambda it: -sum(it[1].values())):
        lines.append(f'| {name} | {sum(crate.values()):.0f} | ' + ' | '.join(f'{crate[it]:.0f}' for it in KINDS) + ' |')
    return lines


def sum_row(crates):
    """The line of the sums of such a table."""
    sums = [sum(crate[kind] for crate in crates.values()) for kind in KINDS]
    return f'| all | {sum(sums):.0f} | ' + ' | '.join(f'{it:.0f}' for it in sums) + ' |'


if __name__ == '__main__':
    if sys.argv[1:2] != [ONE]:
        sys.exit(__doc__)
    one(sys.argv[2], sys.argv[3:])
