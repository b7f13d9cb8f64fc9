#!/usr/bin/env python3
"""Lets each allocation of the program `rackrun` fail in turn: while one fails, the program ends with status 1 and prints nothing.

Run in the repository's root, once `cd crates/rackrun && rt run < stdin` has built the program; it needs a C compiler, `cc`:

    python3 tools/try_allocations.py

It compiles a library of a few lines, which is loaded before the C library and has one call of malloc or realloc fail, and runs the
program on its sheet with the first allocation failing, the second, and so on, until a run is past the last. It prints how many
allocations there are, and ends with status 1 where a run with one that fails has another status than 1, prints, or says no error.
"""
import os
import pathlib
import subprocess
import sys
import tempfile

CRATE = pathlib.Path(__file__).resolve().parent.parent / "crates" / "rackrun"
PROGRAM = CRATE / "out" / "rackrun"
MOST = 10_000

FAILING = r"""
#define _GNU_SOURCE
#include <dlfcn.h>
#include <errno.h>
#include <stddef.h>
#include <stdlib.h>

static long calls;

static int fails(void) {
    const char *at = getenv("FAIL_AT");
    return at != NULL && ++calls == atol(at);
}

void *malloc(size_t size) {
    static void *(*next)(size_t);
    if (next == NULL) next = (void *(*)(size_t))dlsym(RTLD_NEXT, "malloc");
    if (fails()) { errno = ENOMEM; return NULL; }
    return next(size);
}

void *realloc(void *block, size_t size) {
    static void *(*next)(void *, size_t);
    if (next == NULL) next = (void *(*)(void *, size_t))dlsym(RTLD_NEXT, "realloc");
    if (fails()) { errno = ENOMEM; return NULL; }
    return next(block, size);
}
"""


def main():
    if not PROGRAM.exists():
        sys.exit(f"{PROGRAM} is not there: build it with `cd crates/rackrun && rt run < stdin`")
    sheet = (CRATE / "stdin").read_bytes()
    lines = (CRATE / "stdout").read_bytes()
    differences = 0
    with tempfile.TemporaryDirectory() as folder:
        source = pathlib.Path(folder) / "failing.c"
        library = pathlib.Path(folder) / "failing.so"
        source.write_text(FAILING)
        subprocess.run(["cc", "-shared", "-fPIC", "-O1", "-o", str(library), str(source), "-ldl"], check=True)
        for at in range(1, MOST):
            environment = dict(os.environ, LD_PRELOAD=str(library), FAIL_AT=str(at))
            run = subprocess.run([str(PROGRAM)], input=sheet, capture_output=True, env=environment, timeout=60)
            if run.returncode == 0:
                fine = run.stdout == lines and not run.stderr
                print(f"allocation {at} is past the last: status 0, {'the lines as expected' if fine else 'DIFFERS'}")
                differences += not fine
                break
            if run.returncode != 1 or run.stdout or not run.stderr:
                differences += 1
                print(f"allocation {at} fails: status {run.returncode}, printed {run.stdout!r}, error {run.stderr!r}: DIFFERS")
        else:
            sys.exit(f"more than {MOST} allocations")
    print(f"{at - 1} allocations, each failing in turn: {differences} differences from status 1, an error and nothing printed")
    sys.exit(1 if differences else 0)


main()
