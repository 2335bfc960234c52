#!/usr/bin/env python3
"""Runs the built program with one allocation refused, each in turn, and looks that its answer is want of memory or true.

Usage, at the project's root: tests/refused_memory.py [FILE ..]
Without words it takes the examples and the preprocessed programs. It needs gcc, which makes a library that stands before
the C library's allocator. Refused one allocation, a run has to end with status 7 and without a byte, or, where the
program can do without that allocation, as the run that is refused none. For each file it prints how many allocations
there are, and how many runs ended in each way; the status is 1 where one ended otherwise.
"""
import os
import subprocess
import sys
import tempfile
from concurrent.futures import ThreadPoolExecutor
from pathlib import Path

HOME = Path(__file__).resolve().parent.parent
PROGRAM = HOME / "crates/predator/out/predator"
SECONDS = 60
NO_MEMORY = (7, b"")

ALLOCATOR = r"""
#include <errno.h>
#include <stddef.h>
#include <stdio.h>
#include <stdlib.h>

void *__libc_malloc(size_t);
void *__libc_calloc(size_t, size_t);
void *__libc_realloc(void *, size_t);
void *__libc_memalign(size_t, size_t);

static unsigned long asked, refused;

/* Counts one request, and says whether it is the refused one. */
static int is_refused(void) { return ++asked == refused; }

__attribute__((constructor)) static void begin(void)
{
    const char *number = getenv("REFUSED");
    refused = number ? strtoul(number, NULL, 10) : 0;
    asked = 0;
}

__attribute__((destructor)) static void end(void)
{
    const char *name = getenv("ASKED");
    unsigned long until_here = asked;
    FILE *file = name ? fopen(name, "w") : NULL;
    if (file) { fprintf(file, "%lu", until_here); fclose(file); }
}

void *malloc(size_t size) { return is_refused() ? NULL : __libc_malloc(size); }
void *calloc(size_t count, size_t size) { return is_refused() ? NULL : __libc_calloc(count, size); }
void *realloc(void *at, size_t size) { return is_refused() ? NULL : __libc_realloc(at, size); }
void *memalign(size_t align, size_t size) { return is_refused() ? NULL : __libc_memalign(align, size); }
void *aligned_alloc(size_t align, size_t size) { return is_refused() ? NULL : __libc_memalign(align, size); }
int posix_memalign(void **at, size_t align, size_t size)
{
    *at = is_refused() ? NULL : __libc_memalign(align, size);
    return *at ? 0 : ENOMEM;
}
"""


def ran(library, file, **more):
    """The status and what was written, with some variables set."""
    done = subprocess.run([PROGRAM, file.name], cwd=file.parent, stdin=subprocess.DEVNULL, stdout=subprocess.PIPE,
                          stderr=subprocess.PIPE, timeout=SECONDS, env={**os.environ, "LD_PRELOAD": library, **more})
    return done.returncode, done.stdout


def asked_in(library, file, folder):
    """How many allocations a run makes that is refused none, and its end."""
    count = Path(folder, "asked")
    end = ran(library, file, ASKED=str(count))
    return int(count.read_text()), end


def ends(library, file, asked):
    """The ends of the runs that are refused one allocation, in the order of its number."""
    with ThreadPoolExecutor(os.cpu_count()) as pool:
        return list(pool.map(lambda number: ran(library, file, REFUSED=str(number)), range(1, asked + 1)))


def main():
    files = [Path(word).resolve() for word in sys.argv[1:]]
    files = files or sorted([*HOME.glob("examples/*.c"), *HOME.glob("tests/preprocessed/*.i")])
    differs = 0
    with tempfile.TemporaryDirectory() as folder:
        source, library = Path(folder, "allocator.c"), str(Path(folder, "allocator.so"))
        source.write_text(ALLOCATOR)
        subprocess.run(["gcc", "-O2", "-shared", "-fPIC", "-o", library, source], check=True)
        for file in files:
            asked, whole = asked_in(library, file, folder)
            got = ends(library, file, asked)
            wrong = [(number, end) for number, end in enumerate(got, 1) if end not in (NO_MEMORY, whole)]
            differs += bool(wrong) or NO_MEMORY not in got
            print(f"{file.name}: {asked} allocations, {got.count(NO_MEMORY)} ends for want of memory, {got.count(whole)} as with all"
                  f" memory, {len(wrong)} otherwise" + (f": {wrong[:3]!r}" if wrong else ""), flush=True)
    print(f"refused memory: {len(files) - differs} of {len(files)} files end as they are to")
    return 1 if differs else 0


if __name__ == "__main__":
    sys.exit(print(__doc__) if "--help" in sys.argv else main())
