#!/usr/bin/env python3
"""refuse_memory.py PROGRAM [--all] [NAME ..]: runs the program on small sources and on examples with each allocation refused in turn.

The Nth call of malloc, calloc, realloc, aligned_alloc or posix_memalign fails, for N = 1, 2, .. until a run makes fewer calls. Each run has to end
with the source's own text and status, or with status 8 and nothing written. Prints a line for each source, and each run that ends otherwise.
Without --all the first calls are each refused, and of the others as many, evenly spread. A NAME is one of `preloaded.SMALL`, or of an example.
It needs a C compiler and a program that is linked dynamically.
"""
import os
import pathlib
import sys
import tempfile

import preloaded

# The first calls are each refused; of the others as many, evenly spread, as come to about this number of runs.
EACH, MOST = 300, 300
# The C library keeps the stacks of ended threads, up to 40 MB, with an allocation each: none where the program ran in a thread with a stack of its own, which is larger.
KEPT = 5

SHIM = r"""
#include <errno.h>
#include <stdlib.h>

static long refused = -1;

static int refuses(void) {
    if (refused < 0) {
        const char *text = getenv("REFUSED");
        refused = text ? atol(text) : 0;
    }
    long call = atomic_fetch_add(&calls, 1) + 1;
    if (call != refused) return 0;
    errno = ENOMEM;
    return 1;
}

extern void *__libc_malloc(size_t);
extern void *__libc_calloc(size_t, size_t);
extern void *__libc_realloc(void *, size_t);
extern void *__libc_memalign(size_t, size_t);
extern void __libc_free(void *);

static void *made(void *at) {
    if (at) atomic_fetch_add(&live, 1);
    return at;
}

void free(void *at) {
    if (at) atomic_fetch_sub(&live, 1);
    __libc_free(at);
}

void *malloc(size_t size) { return refuses() ? NULL : made(__libc_malloc(size)); }
void *calloc(size_t count, size_t size) { return refuses() ? NULL : made(__libc_calloc(count, size)); }
void *aligned_alloc(size_t align, size_t size) { return refuses() ? NULL : made(__libc_memalign(align, size)); }

void *realloc(void *at, size_t size) {
    if (refuses()) return NULL;
    if (!at) return made(__libc_malloc(size));
    if (!size) atomic_fetch_sub(&live, 1);
    return __libc_realloc(at, size);
}

int posix_memalign(void **at, size_t align, size_t size) {
    if (refuses()) return ENOMEM;
    *at = made(__libc_memalign(align, size));
    return *at ? 0 : ENOMEM;
}
"""


class Tried:
    """What was seen of a source with so many workers."""

    def __init__(self, calls):
        self.calls, self.runs, self.memory, self.own, self.wrong = calls, 0, 0, 0, []


def run(program, made, example, workers, refused):
    return preloaded.run(program, made, example, ["--workers", workers], {"REFUSED": refused})


def tries(program, made, example, workers, every=False):
    """Runs the source with allocations refused. Each run has to end as it may, with no more that is live than a run without a refusal leaves, and stacks that are kept."""
    status, text, _, calls, live = run(program, made, example, workers, 0)
    step = 1 if every else max(1, calls // MOST)
    tried = Tried(calls)
    for number in (n for n in range(1, calls + 1) if n <= EACH or n % step == 0):
        now, written, _, _, left = run(program, made, example, workers, number)
        tried.runs += 1
        if (now, written) == (8, b"") and left <= live + KEPT:
            tried.memory += 1
        elif (now, written) == (status, text) and left <= live + KEPT:
            tried.own += 1
        else:
            tried.wrong.append(f"allocation {number}: status {now}, {written[:60]!r}, {left - live} more live than without a refusal")
    return tried


def main():
    words = [word for word in sys.argv[1:] if word != "--all"]
    program = os.path.abspath(words[0])
    lost = 0
    with tempfile.TemporaryDirectory() as place:
        folder = pathlib.Path(place)
        made = preloaded.library(folder, SHIM)
        preloaded.write_small(folder)
        for name in words[1:] or preloaded.names():
            for workers in ("1", "4"):
                tried = tries(program, made, preloaded.place_of(folder, name), workers, "--all" in sys.argv)
                print(f"{name} with {workers}: {tried.calls} allocations, {tried.runs} refused in turn, {tried.memory} in status 8, {len(tried.wrong)} wrong", flush=True)
                for line in tried.wrong[:5]:
                    print(f"    {line}")
                lost += len(tried.wrong)
    return 1 if lost else 0


if __name__ == "__main__":
    sys.exit(main())
