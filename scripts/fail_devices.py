#!/usr/bin/env python3
"""fail_devices.py PROGRAM [NAME ..]: runs the program with each call on a file failing in turn, and with reads and writes cut short.

The Nth call of open, read or write fails, for N = 1, 2, .. until a run makes fewer calls: with EIO, EINTR or ENOSPC, and a write also by taking nothing. Each run has to end by
what that call was of: of the source in status 5 with `read fault source`, of the input in status 5 with `read fault input`, and of standard output in status 6 with what the
calls before took; an `open` that is interrupted is made again. The Nth read or write moves one byte alone, or each of them does: a run ends as one that is not cut
short. Where each write moves one byte, each of the first WRITES of them fails in turn. Prints a line for each source, and each run that ends otherwise.
A NAME is one of `preloaded.SMALL`, or of an example. It needs a C compiler and a program that is linked dynamically.
"""
import errno
import os
import pathlib
import sys
import tempfile

import preloaded

# Of writes of one byte, so many fail in turn.
WRITES = 40
# What a call fails with. A write that takes nothing has no error number.
ERRORS = {"EIO": errno.EIO, "EINTR": errno.EINTR, "ENOSPC": errno.ENOSPC, "nothing taken": 0}

SHIM = r"""
#include <errno.h>
#include <fcntl.h>
#include <stdarg.h>
#include <stdlib.h>
#include <string.h>
#include <sys/types.h>

static long number(const char *name) {
    const char *text = getenv(name);
    return text ? atol(text) : -1;
}

// What each descriptor is of: S the source, I the input, W standard output, 0 anything else. A call that opens is told in a small letter.
static char kinds[1024] = {[1] = 'W'};

static char kind_of(int at) { return at >= 0 && at < 1024 ? kinds[at] : 0; }

// Counts a call, and tells what it is of. Returns its number.
static long counted(char kind) {
    if (kind && number("TOLD") > 0) syscall(SYS_write, 9, &kind, 1);
    return kind ? atomic_fetch_add(&calls, 1) + 1 : 0;
}

static ssize_t moved(long call, int at, const void *bytes, size_t count) {
    long now = counted(kind_of(at));
    if (now && now == number("FAILED")) {
        errno = number("ERROR");
        return errno ? -1 : 0;
    }
    long cut = number("SHORT");
    if (now && count > 1 && (cut == 0 || cut == now)) count = 1;
    return syscall(call, at, bytes, count);
}

ssize_t read(int at, void *bytes, size_t count) { return moved(SYS_read, at, bytes, count); }
ssize_t write(int at, const void *bytes, size_t count) { return moved(SYS_write, at, bytes, count); }

static char named(const char *path) {
    const char *end = strrchr(path, '.');
    return end && !strcmp(end, ".sac") ? 'S' : end && !strcmp(end, ".in") ? 'I' : 0;
}

static int opened(int folder, const char *path, int flags, mode_t mode) {
    char kind = named(path);
    long now = counted(kind ? kind - 'A' + 'a' : 0);
    if (now && now == number("FAILED")) {
        errno = number("ERROR");
        return -1;
    }
    int at = syscall(SYS_openat, folder, path, flags, mode);
    if (at >= 0 && at < 1024) kinds[at] = kind;
    return at;
}

#define MODE(flags, mode) do { va_list rest; va_start(rest, flags); mode = (flags) & O_CREAT ? va_arg(rest, mode_t) : 0; va_end(rest); } while (0)

int open(const char *path, int flags, ...) { mode_t mode; MODE(flags, mode); return opened(AT_FDCWD, path, flags, mode); }
int open64(const char *path, int flags, ...) { mode_t mode; MODE(flags, mode); return opened(AT_FDCWD, path, flags, mode); }
int openat(int folder, const char *path, int flags, ...) { mode_t mode; MODE(flags, mode); return opened(folder, path, flags, mode); }
"""


def run(program, made, example, **settings):
    return preloaded.run(program, made, example, ["--report"], settings)


class Tried:
    """What was seen of a source: the calls of a run, what the runs ended in, and the runs that ended otherwise than they may."""

    def __init__(self, kinds):
        self.kinds, self.ends, self.wrong = kinds, {}, []

    def judge(self, what, due, ended):
        """Counts a run that ended, against the status and the text that are due."""
        status, text = ended[:2]
        self.ends[status] = self.ends.get(status, 0) + 1
        if (status, text) != due:
            self.wrong.append(f"{what}: status {status}, {text[:60]!r}, due {due[0]}, {due[1][:60]!r}")


def due_of(kind, taken):
    return {"S": (5, b"read fault source\n"), "I": (5, b"read fault input\n"), "W": (6, taken)}[kind.upper()]


def tries(program, made, example):
    """Runs the source with each call failing in turn, and with each cut short."""
    status, text, kinds, *_ = run(program, made, example, TOLD=1)
    tried = Tried(kinds)
    for number, kind in enumerate(kinds, 1):
        for name, error in ERRORS.items():
            if error or kind == "W":
                ended = run(program, made, example, FAILED=number, ERROR=error)
                # Before a later write some front was taken, of a length that the system chose.
                taken = ended[1] if "W" in kinds[: number - 1] and text.startswith(ended[1]) else b""
                due = (status, text) if kind.islower() and name == "EINTR" else due_of(kind, taken)
                tried.judge(f"call {number} fails by {name}", due, ended)
        tried.judge(f"call {number} moves a byte", (status, text), run(program, made, example, SHORT=number))
    tried.judge("one byte a call", (status, text), run(program, made, example, SHORT=0))
    calls = run(program, made, example, SHORT=0)[3]
    for taken in range(min(WRITES, len(text))):
        number = calls - len(text) + taken + 1
        tried.judge(f"write {taken + 1} of one byte fails", (6, text[:taken]), run(program, made, example, SHORT=0, FAILED=number, ERROR=errno.EIO))
    return tried


def main():
    program = os.path.abspath(sys.argv[1])
    lost = 0
    with tempfile.TemporaryDirectory() as place:
        folder = pathlib.Path(place)
        made = preloaded.library(folder, SHIM)
        preloaded.write_small(folder)
        for name in sys.argv[2:] or preloaded.names():
            tried = tries(program, made, preloaded.place_of(folder, name))
            seen = ", ".join(f"{count} in status {status}" for status, count in sorted(tried.ends.items()))
            print(f"{name}: {len(tried.kinds)} calls ({tried.kinds}), {sum(tried.ends.values())} runs: {seen}; {len(tried.wrong)} wrong", flush=True)
            for line in tried.wrong[:5]:
                print(f"    {line}")
            lost += len(tried.wrong)
    return 1 if lost else 0


if __name__ == "__main__":
    sys.exit(main())
