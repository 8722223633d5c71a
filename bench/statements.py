#!/usr/bin/env python3
"""Proves the crate in the current folder, and makes a library of its statements: what other crates
can cite of it, without its proofs.

The crates above are checked over such libraries in less time and memory than over whole ones, as
`rt lib` makes them. `rt` makes them for its verdicts, and keeps none: so this is a program over the
toolchain's module `rtlib`. It leaves the stamp by which `rt` knows what a library is made of. Of
the check itself nothing is kept. A toolchain without that module makes a whole library.

usage: statements.py JOBS
"""
import os, shutil, sys

sys.dont_write_bytecode = True
sys.path.insert(0, os.path.dirname(os.path.realpath(shutil.which("rt"))))
try:
    import rtlib
except ImportError:
    rtlib = None


def main(jobs):
    if rtlib is None:
        os.execvp("rt", ["rt", "lib", "--jobs", jobs])
    here = os.getcwd()
    # what ends the commands of this process with it: it has to be there before the first of them
    rtlib.guarded()
    crate = rtlib.Crate(here, rtlib.root_above(here), {})
    stamp, folder = crate.stamp(), os.path.dirname(crate.rlib)
    shutil.rmtree(folder, ignore_errors=True)
    os.makedirs(folder)
    words = crate.words(["--jobs", jobs, "--statements"], keeps=False)
    status = crate.call(rtlib.RATTLE, "build", *words, "-o", crate.rlib)
    if status == 0 and stamp == crate.stamp():
        with open(os.path.join(folder, "stamp"), "w", encoding="utf-8") as file:
            file.write(stamp)
    return status


if __name__ == "__main__":
    sys.exit(main(*sys.argv[1:]))
