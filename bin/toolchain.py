"""The toolchain's command `rt` as a module, and what of it is not in each kit."""
import functools
import importlib.machinery
import importlib.util
import inspect
import os
import shutil
import sys
import tempfile


def toolchain():
    """Loads `rt`, whose parts what stands here calls: which crates there are, how each is proved, and in which order."""
    loader = importlib.machinery.SourceFileLoader('rtmain', os.path.realpath(shutil.which('rt')))
    spec = importlib.util.spec_from_loader('rtmain', loader)
    rt = importlib.util.module_from_spec(spec)
    sys.modules['rtmain'] = rt
    loader.exec_module(rt)
    return rt


def look_once(rt):
    """Has the toolchain look once at what stands below a crate and at the sum of its files, and not along each path that leads to it: to the
    highest crates there are 900,000."""
    crate = rt.rtlib.Crate
    crate.below = functools.cache(crate.below)
    if hasattr(crate, 'stamp'):
        crate.stamp = functools.cache(crate.stamp)


class NothingKept:
    """Stands for what earlier runs proved, in a kit that keeps nothing of them."""

    def key(self, crate):
        return crate.name

    def give(self, crate, tests, key):
        return False

    def keep(self, crate, tests, key):
        pass

    def is_built(self, crate):
        pass

    def shrink(self):
        pass


def kept(rt, crates):
    """What earlier runs on this machine proved."""
    return rt.Kept(crates) if hasattr(rt, 'Kept') else NothingKept()


def crates_of(rt, root):
    """The crates of a copy of the repository, lowest first."""
    if len(inspect.signature(rt.crates_of).parameters) == 1:
        return rt.crates_of(root)
    with tempfile.TemporaryDirectory(prefix='fsvol-aside-') as aside:
        return rt.crates_of(root, aside)


def copy_crates(rt, top, to):
    """Copies what the prover reads of the repository."""
    if hasattr(rt, 'copy_crates'):
        rt.copy_crates(top, to)
        return
    shutil.copytree(f'{top}/crates', f'{to}/crates', ignore=shutil.ignore_patterns('out'))
    for name in ('crates.txt', 'HANDLES'):
        shutil.copy(f'{top}/{name}', to)


def where_disk_lasts(rt, call, *words):
    """Calls it where the kit's own check of the disk lets it."""
    return rt.where_disk_lasts(call, *words) if hasattr(rt, 'where_disk_lasts') else call(*words)


# What a check takes of memory: up to 3 GB was seen, where the kit counts 7.
A_CHECK = 3_500_000_000


def lanes(rt):
    """How many checks run side by side: one a processor, as many as the free memory holds, and one at the least. `RT_JOBS` tells the toolchain."""
    return max(1, min(rt.processors(), int(0.85 * rt.free() / A_CHECK)))


# What a check was seen to take of the memory that the toolchain counts for it: 0.22 to 0.45.
SHARE = 0.5
LEAST = 1_200_000_000


def count_memory_as_seen(rt):
    """Has the toolchain count for a check what checks were seen to take, so that as many run side by side as the memory bears."""
    counted = rt.need
    rt.need = lambda crate: max(LEAST, int(SHARE * counted(crate)))
