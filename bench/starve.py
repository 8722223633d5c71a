#!/usr/bin/env python3
"""Runs `linker replay` on samples with memory refused: at each call in turn, once alone and once
with all calls after it.

Each run must end with status 7, having written whole replies from the front of what it writes with
ample memory, and `error memory` behind them; or, where one call alone is refused that the run can
do without, just as with ample memory. It needs a C compiler, `cc`, for the malloc that refuses.

The samples are examples/first.script, and examples/lines.script, which has each kind of line.

usage: bench/starve.py [--program crates/linker/out/linker] [--script SCRIPT]
"""
import argparse, os, subprocess, sys, tempfile

HERE = os.path.dirname(os.path.abspath(__file__))

SAMPLES = [os.path.join(HERE, "..", "examples", name) for name in ("first.script", "lines.script")]

# Which calls are refused, by their numbers from the start of the program.
BY_NUMBER = r"""
#include <stdlib.h>

static long calls;

static int is_refused(void) {
    const char *first = getenv("REFUSE_FIRST"), *last = getenv("REFUSE_LAST");
    calls++;
    return first && calls >= atol(first) && (!last || calls <= atol(last));
}
"""

# A malloc that refuses the calls for which `is_refused` says so.
REFUSING_MALLOC = r"""
#include <errno.h>
#include <stddef.h>

extern void *__libc_malloc(size_t);
extern void *__libc_realloc(void *, size_t);

void *malloc(size_t size) {
    if (is_refused()) { errno = ENOMEM; return 0; }
    return __libc_malloc(size);
}

void *realloc(void *old, size_t size) {
    if (is_refused()) { errno = ENOMEM; return 0; }
    return __libc_realloc(old, size);
}
"""


def refusing_library(folder, is_refused):
    """The path of a library in the folder, to be loaded before a program, by which its calls for
    memory are refused where this C text says so."""
    library = os.path.join(folder, "refuse.so")
    subprocess.run(
        ["cc", "-shared", "-fPIC", "-O1", "-x", "c", "-o", library, "-"],
        input=(is_refused + REFUSING_MALLOC).encode(),
        check=True,
    )
    return library


def starve(program, library, script):
    """Refuses memory at each call that the program makes on a script."""

    def run(**refuse):
        done = subprocess.run(
            [program, "replay"],
            input=script,
            capture_output=True,
            env={"LD_PRELOAD": library, **refuse},
        )
        return done.returncode, done.stdout

    ample = run()
    if ample[0] != 0:
        sys.exit(f"with ample memory the status is {ample[0]}")

    def look(at, refused, name):
        """Whether the run noticed that these calls were refused."""
        status, output = refused
        if refused == ample:
            return False
        replies = output.removesuffix(b"error memory\n")
        if (
            status != 7
            or replies == output
            or not ample[1].startswith(replies)
            or (replies and not replies.endswith(b"\n"))
        ):
            sys.exit(f"call {at} refused, {name}: status {status}, output {output!r}")
        return True

    name, calls = "that call and all after it", 0
    while look(calls + 1, run(REFUSE_FIRST=str(calls + 1)), name):
        calls += 1
    print(
        f"{name}: refused at each of {calls} calls; "
        "each run ended with status 7 after whole replies"
    )
    name, noticed = "that call alone", 0
    for at in range(1, calls + 1):
        noticed += look(at, run(REFUSE_FIRST=str(at), REFUSE_LAST=str(at)), name)
    print(
        f"{name}: refused at each of {calls} calls; {noticed} runs ended with status 7 after "
        "whole replies, the others as with ample memory"
    )


def main():
    parser = argparse.ArgumentParser(
        description=__doc__, formatter_class=argparse.RawDescriptionHelpFormatter
    )
    parser.add_argument(
        "--program", default=os.path.join(HERE, "..", "crates", "linker", "out", "linker")
    )
    parser.add_argument("--script", help="this script in the place of the samples")
    options = parser.parse_args()

    with tempfile.TemporaryDirectory() as folder:
        library = refusing_library(folder, BY_NUMBER)
        for path in [options.script] if options.script else SAMPLES:
            with open(path, "rb") as file:
                script = file.read()
            print(f"{os.path.relpath(path)}:")
            starve(options.program, library, script)


if __name__ == "__main__":
    main()
