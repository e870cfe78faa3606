"""Proves crates in a copy of the repository: each from nothing, once those below it are proved, unless a run on this machine proved
the same files over the same libraries and the kit keeps that."""
import contextlib
import functools
import os
import sys
import tempfile
import threading

from toolchain import copy_crates, count_memory_as_seen, look_once


@contextlib.contextmanager
def in_copy(rt, top):
    """Goes into a copy of the repository, so that what other commands of the toolchain left in the crates' folders stays; checks run side by side there as memory bears it."""
    look_once(rt)
    count_memory_as_seen(rt)
    rt.Crate.cuts_libraries = True
    rt.rtlib.guarded()
    with tempfile.TemporaryDirectory(prefix='fsvol-') as room:
        repository = f'{room}/repo'
        copy_crates(rt, top, repository)
        os.mkdir(f'{repository}/.git')
        os.chdir(repository)
        rt.Crate.allowed = rt.handles_of(repository)
        yield repository


class Proofs:
    """The proofs of some crates, of which each stands on none but these."""

    def __init__(self, rt, name, crates, kept):
        self.rt, self.name, self.crates, self.kept = rt, name, crates, kept
        self.done, self.telling = 0, threading.Lock()

    def tell(self, text):
        print(f'{self.name}: {text}', file=sys.stderr, flush=True)

    def prove(self, crate, given, jobs):
        """Proves one crate, or takes what a run on this machine proved of the same; returns whether it is proved."""
        if not all(given[it.name, 'proof'] for it in crate.below()):
            return False
        os.makedirs(f'{crate.folder}/out', exist_ok=True)
        key = self.kept.key(crate)
        how = 'is kept'
        if not self.kept.give(crate, False, key):
            how = 'proved'
            if not self.is_proved_now(crate, key, jobs):
                return False
        self.kept.is_built(crate)
        with self.telling:
            self.done += 1
            self.tell(f'{self.done} of {len(self.crates)}: {crate.name} {how}')
        return True

    def is_proved_now(self, crate, key, jobs):
        """Proves a crate from nothing, and keeps what was made; shows what the prover said if it is not proved."""
        with tempfile.TemporaryFile('a+', errors='replace') as crate.out:
            if not crate.ci(['--jobs', str(jobs)], False):
                self.kept.keep(crate, False, key)
                return True
            crate.out.seek(0)
            with self.telling:
                print(crate.out.read(), end='', file=sys.stderr)
                self.tell(f'{crate.name} is not proved')
            return False

    def tasks(self):
        """The tasks of which each proves a crate, once those below it are proved."""
        return {
            (it.name, 'proof'): ([(below.name, 'proof') for below in it.below()], it.count(rb'\n'), self.rt.need(it), functools.partial(self.prove, it))
            for it in self.crates
        }
