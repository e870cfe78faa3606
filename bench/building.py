"""Builds the programs that the benches run. Each bench builds its program each time, so none measures an old one; the toolchain does
again only what changed."""
import functools
import os
import re
import subprocess
import sys

TOP = os.path.dirname(os.path.dirname(os.path.abspath(__file__)))


def run(words, folder):
    """Runs a command of the toolchain's; if it fails, prints what it printed, and ends."""
    done = subprocess.run(words, cwd=folder, stdin=subprocess.DEVNULL, stdout=subprocess.PIPE, stderr=subprocess.STDOUT, text=True)
    if done.returncode != 0:
        sys.stderr.write(done.stdout)
        raise SystemExit('%s ended with status %d' % (' '.join(words), done.returncode))


@functools.cache
def program(crate):
    """Proves a crate and those that it stands on, builds its program as `rt ci` does, by LLVM, and gives the program's path."""
    run([os.path.join(TOP, 'bin', 'build'), crate], TOP)
    return os.path.join(TOP, 'crates', crate, 'out', crate)


@functools.cache
def fsvol():
    """The path of fsvol, which bin/fsvol builds; or what FSVOL names."""
    if 'FSVOL' in os.environ:
        return os.path.abspath(os.environ['FSVOL'])
    run([os.path.join(TOP, 'bin', 'fsvol')], TOP)
    return os.path.join(TOP, 'crates', 'fsvol', 'out', 'fsvol')


@functools.cache
def heap():
    """What bin/fsvol asks the C library for."""
    with open(os.path.join(TOP, 'bin', 'fsvol'), encoding='ascii') as script:
        return re.search('^heap=(.*)$', script.read(), re.MULTILINE)[1]


def environment(words):
    """The environment of a child with these words: fsvol runs as bin/fsvol runs it, and a peer as it is."""
    if words[0] != fsvol():
        return None
    return {'GLIBC_TUNABLES': heap(), **os.environ}


def test_lists():
    """The path of the program that carries out lists of commands; or what TEST_LISTS names."""
    if 'TEST_LISTS' in os.environ:
        return os.path.abspath(os.environ['TEST_LISTS'])
    return program('test_lists')
