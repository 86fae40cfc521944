#!/usr/bin/env python3
"""allocations.py PROGRAM [FILE]: what becomes of a run in which one allocation is refused, for each of them in turn.

Without a file: the first example of the README. A small library, which gcc compiles, stands before the C library's
`malloc`, `realloc`, `aligned_alloc` and `posix_memalign`, counts the calls, and refuses the one whose number it is
given. Each run is to end with the line `no memory` and status 6, or as without a refusal. Prints how many allocations
were refused and how the runs ended, and ends with status 1 where one ended otherwise.
"""
import collections
import os
import subprocess
import sys
import tempfile

SHIM = r"""
#define _GNU_SOURCE
#include <dlfcn.h>
#include <errno.h>
#include <fcntl.h>
#include <stdlib.h>
#include <unistd.h>

static unsigned long seen, refused;
static int begun;

static void begin(void) {
    if (!begun) {
        const char *number = getenv("REFUSED_ALLOCATION");
        refused = number ? strtoul(number, 0, 10) : 0;
        begun = 1;
    }
}

static int refuse(void) {
    begin();
    seen += 1;
    if (seen != refused) return 0;
    const char *mark = getenv("REFUSED_MARK");
    int out = mark ? open(mark, O_CREAT | O_WRONLY, 0600) : -1;
    if (out >= 0) close(out);
    return 1;
}

void *malloc(size_t size) {
    static void *(*real)(size_t);
    if (!real) real = dlsym(RTLD_NEXT, "malloc");
    return refuse() ? (errno = ENOMEM, (void *)0) : real(size);
}

void *realloc(void *old, size_t size) {
    static void *(*real)(void *, size_t);
    if (!real) real = dlsym(RTLD_NEXT, "realloc");
    return refuse() ? (errno = ENOMEM, (void *)0) : real(old, size);
}

void *aligned_alloc(size_t align, size_t size) {
    static void *(*real)(size_t, size_t);
    if (!real) real = dlsym(RTLD_NEXT, "aligned_alloc");
    return refuse() ? (errno = ENOMEM, (void *)0) : real(align, size);
}

int posix_memalign(void **out, size_t align, size_t size) {
    static int (*real)(void **, size_t, size_t);
    if (!real) real = dlsym(RTLD_NEXT, "posix_memalign");
    return refuse() ? ENOMEM : real(out, align, size);
}
"""

SUM = """\
module 0x1::m {
    fun f(x: u64, y: u64): u64 { x + y }
    spec f {
        aborts_if x + y > MAX_U64;
        ensures result == x + y;
    }
}
"""


def main():
    program = os.path.abspath(sys.argv[1])
    text = open(sys.argv[2]).read() if len(sys.argv) > 2 else SUM
    with tempfile.TemporaryDirectory() as folder:
        with open(os.path.join(folder, "a.move"), "w") as file:
            file.write(text)
        source, shim = os.path.join(folder, "shim.c"), os.path.join(folder, "shim.so")
        with open(source, "w") as file:
            file.write(SHIM)
        subprocess.run(["gcc", "-shared", "-fPIC", "-O1", "-o", shim, source, "-ldl"], check=True)

        mark = os.path.join(folder, "mark")

        def run(number):
            """The status, the output, and whether so many allocations were asked for."""
            if os.path.exists(mark):
                os.remove(mark)
            environment = dict(os.environ, LD_PRELOAD=shim, REFUSED_ALLOCATION=str(number), REFUSED_MARK=mark)
            ended = subprocess.run([program, "a.move"], cwd=folder, env=environment, capture_output=True)
            return ended.returncode, ended.stdout, os.path.exists(mark)

        status, report, _ = run(0)
        ends = collections.Counter()
        number = 0
        while True:
            number += 1
            ended, out, refused = run(number)
            if not refused:
                break
            if (ended, out) == (6, b"no memory\n"):
                ends["no memory"] += 1
            elif (ended, out) == (status, report):
                ends["as without a refusal"] += 1
            else:
                ends["otherwise"] += 1
                print(f"allocation {number}: status {ended}, {out[:80]!r}")
        print(f"{number - 1} allocations, each refused once: {dict(ends)}")
        return 1 if ends["otherwise"] else 0


if __name__ == "__main__":
    sys.exit(main())
