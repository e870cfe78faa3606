"""Runs a program of which one call of the C library fails: the one of a given number. bench/cuts and bench/refused use it.

A small library in C, which gcc builds in a folder of its own, stands before the C library (LD_PRELOAD). It counts calls in a file
that it shares with this program, since a program may end without a word."""
import mmap
import os
import struct
import subprocess

C = r'''
#define _GNU_SOURCE
#include <errno.h>
#include <fcntl.h>
#include <stdarg.h>
#include <stdatomic.h>
#include <stdlib.h>
#include <string.h>
#include <sys/mman.h>
#include <sys/syscall.h>
#include <unistd.h>

extern void *__libc_malloc(size_t);
extern void *__libc_realloc(void *, size_t);

static atomic_ulong *counter;
static unsigned long number;
static char kind;

__attribute__((constructor)) static void begin(void)
{
    const char *path = getenv("BREAKING_COUNTER"), *at = getenv("BREAKING_NUMBER"), *which = getenv("BREAKING_KIND");
    int fd = path ? (int)syscall(SYS_openat, AT_FDCWD, path, O_RDWR) : -1;
    if (fd < 0 || !at || !which)
        return;
    void *page = mmap(0, 4096, PROT_READ | PROT_WRITE, MAP_SHARED, fd, 0);
    syscall(SYS_close, fd);
    if (page == MAP_FAILED)
        return;
    number = strtoul(at, 0, 10);
    kind = which[0];
    counter = page;
}

/* Whether this call is the one. */
static int hit(void)
{
    return counter && atomic_fetch_add(counter, 1) + 1 == number;
}

void *malloc(size_t size)
{
    if (kind == 'm' && hit()) {
        errno = ENOMEM;
        return 0;
    }
    return __libc_malloc(size);
}

void *realloc(void *old, size_t size)
{
    if (kind == 'm' && hit()) {
        errno = ENOMEM;
        return 0;
    }
    return __libc_realloc(old, size);
}

/* Whether a call of the system fails: 'f' it does, 'x' the program ends before it. */
static int fails(void)
{
    if ((kind != 'f' && kind != 'x') || !hit())
        return 0;
    if (kind == 'x')
        syscall(SYS_exit_group, 99);
    errno = EIO;
    return 1;
}

/* How many bytes of so many a call moves: 's' one. */
static size_t moved(size_t size)
{
    return kind == 's' && size > 1 && hit() ? 1 : size;
}

ssize_t read(int fd, void *to, size_t size)
{
    return fails() ? -1 : syscall(SYS_read, fd, to, moved(size));
}

ssize_t write(int fd, const void *from, size_t size)
{
    return fails() ? -1 : syscall(SYS_write, fd, from, moved(size));
}

ssize_t __write(int fd, const void *from, size_t size)
{
    return write(fd, from, size);
}

ssize_t pread(int fd, void *to, size_t size, off_t at)
{
    if (fails()) {
        /* The first of several blocks is asked for again, alone: that fails too. */
        if (size > 1024)
            number++;
        return -1;
    }
    return syscall(SYS_pread64, fd, to, moved(size), at);
}

ssize_t pwrite(int fd, const void *from, size_t size, off_t at)
{
    return fails() ? -1 : syscall(SYS_pwrite64, fd, from, moved(size), at);
}

int fsync(int fd)
{
    return fails() ? -1 : (int)syscall(SYS_fsync, fd);
}

int fdatasync(int fd)
{
    return fails() ? -1 : (int)syscall(SYS_fdatasync, fd);
}

int ftruncate(int fd, off_t size)
{
    return fails() ? -1 : (int)syscall(SYS_ftruncate, fd, size);
}

int open(const char *path, int flags, ...)
{
    va_list rest;
    va_start(rest, flags);
    int mode = va_arg(rest, int);
    va_end(rest);
    /* std asks the system how many processors there are, and does without an answer. */
    int asks = strncmp(path, "/sys/", 5) == 0;
    return !asks && fails() ? -1 : (int)syscall(SYS_openat, AT_FDCWD, path, flags, mode);
}
'''


class Breaking:
    """Runs programs, with a library and a counter in a folder."""

    def __init__(self, folder):
        source, self.library = os.path.join(folder, 'breaking.c'), os.path.join(folder, 'breaking.so')
        with open(source, 'w') as file:
            file.write(C)
        subprocess.run(['gcc', '-O1', '-shared', '-fPIC', '-o', self.library, source], check=True)
        self.path = os.path.join(folder, 'counter')
        with open(self.path, 'wb') as file:
            file.write(bytes(4096))
        self.file = open(self.path, 'r+b')
        self.page = mmap.mmap(self.file.fileno(), 4096)

    def run(self, words, kind, number, seconds=60):
        """The status, output and errors of a program whose call of this number fails, and how many such calls it made.

        The kind is `m` for an allocation, `f` for a call that reads, writes or opens, `x` for such a one at which the program ends,
        and `s` for a read or write that moves one byte. No call has the number 0."""
        self.page[:8] = bytes(8)
        known = dict(os.environ, LD_PRELOAD=self.library, BREAKING_COUNTER=self.path, BREAKING_NUMBER=str(number), BREAKING_KIND=kind)
        done = subprocess.run(words, stdin=subprocess.DEVNULL, stdout=subprocess.PIPE, stderr=subprocess.PIPE, env=known, timeout=seconds)
        return done.returncode, done.stdout.decode(), done.stderr.decode(), struct.unpack('<Q', self.page[:8])[0]
