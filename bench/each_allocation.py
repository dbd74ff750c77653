#!/usr/bin/env python3
"""Makes each allocation of a program fail in turn: bench/each_allocation.py SCRIPT PROGRAM WORD ..
Needs cc and glibc. Each run must print the whole report with status 0, or nothing with status 6."""
import os
import subprocess
import sys
import tempfile
from collections import Counter
from multiprocessing import Pool

SHIM = r"""
#include <errno.h>
#include <stddef.h>
#include <stdio.h>
#include <stdlib.h>

extern void *__libc_malloc(size_t), *__libc_calloc(size_t, size_t), *__libc_realloc(void *, size_t);
extern void *__libc_memalign(size_t, size_t);

static long calls, failing = -1;

static int fails(void) {
    if (failing < 0) failing = getenv("FAILING") ? atol(getenv("FAILING")) : 0;
    if (++calls != failing) return 0;
    errno = ENOMEM;
    return 1;
}

__attribute__((destructor)) static void tell(void) {
    if (failing == 0) fprintf(stderr, "%ld\n", calls);
}

void *malloc(size_t size) { return fails() ? NULL : __libc_malloc(size); }
void *calloc(size_t count, size_t size) { return fails() ? NULL : __libc_calloc(count, size); }
void *realloc(void *old, size_t size) { return fails() ? NULL : __libc_realloc(old, size); }
void *aligned_alloc(size_t align, size_t size) { return fails() ? NULL : __libc_memalign(align, size); }

int posix_memalign(void **found, size_t align, size_t size) {
    *found = aligned_alloc(align, size);
    return *found ? 0 : ENOMEM;
}
"""


def run(shim, failing):
    """Runs the program, with the allocation of a number failing; 0 fails none."""
    with open(sys.argv[1], "rb") as script:
        env = {"LD_PRELOAD": shim, "FAILING": str(failing)}
        return subprocess.run(sys.argv[2:], stdin=script, capture_output=True, env=env, check=False)


def judge(case):
    """How a run with a failing allocation ended."""
    shim, failing, report = case
    ended = run(shim, failing)
    if ended.returncode == 0 and ended.stdout == report:
        return "whole report"
    if ended.returncode == 6 and ended.stdout == b"" and ended.stderr == b"ctltarget: no memory\n":
        return "no memory"
    return f"WRONG at allocation {failing}: status {ended.returncode}, {len(ended.stdout)} bytes"


def main():
    with tempfile.TemporaryDirectory() as folder:
        source, shim = os.path.join(folder, "shim.c"), os.path.join(folder, "shim.so")
        with open(source, "w") as file:
            file.write(SHIM)
        subprocess.run(["cc", "-O2", "-shared", "-fPIC", "-o", shim, source], check=True)
        whole = run(shim, 0)
        count = int(whole.stderr)
        cases = [(shim, number, whole.stdout) for number in range(1, count + 1)]
        with Pool() as pool:
            ends = Counter(pool.imap_unordered(judge, cases, 64))
    for end, times in sorted(ends.items()):
        print(f"{times:7} {end}")
    sys.exit(any(end.startswith("WRONG") for end in ends))


if __name__ == "__main__":
    main()
