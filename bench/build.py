#!/usr/bin/env python3
"""Proves and builds crates and what they stand on, side by side (side_by_side.py), with a line a
crate on standard error.

What is made of a crate lies in its `out/` as soon as the crate is done: of a library its statements
(statements.py), or the whole of it where a check of the crate has kept what it proved. A build that
was interrupted goes on with the crates that were not done.

usage: bench/build.py              the program
       bench/build.py CRATE ..     these libraries
"""
import contextlib, fcntl, functools, hashlib, os, shutil, signal, subprocess, sys, threading, time
from concurrent.futures import ThreadPoolExecutor

from over_crates import ROOT, at_or_below, listed_crates
from side_by_side import (
    Commands,
    Task,
    discard,
    in_lanes,
    lay_out,
    library_words,
    link_tree,
    processors,
    work_of,
)

PROGRAM = "linker"


def tell(text):
    print(f"linker: {text}", file=sys.stderr, flush=True)


def in_minutes(seconds):
    return f"{int(seconds) // 60}:{int(seconds) % 60:02}"


def out_of(root, crate):
    """The folder of what is made of a crate."""
    return os.path.join(root, "crates", crate, "out")


@contextlib.contextmanager
def alone_with(path):
    """Waits until nobody else is alone with a file or a folder, and then is. An `rt` is alone with
    the folder of each crate that it works on."""
    descriptor = os.open(path, os.O_RDONLY)
    try:
        try:
            fcntl.flock(descriptor, fcntl.LOCK_EX | fcntl.LOCK_NB)
        except BlockingIOError:
            tell(f"waiting for another build, or another rt, to finish with {path}")
            fcntl.flock(descriptor, fcntl.LOCK_EX)
        yield
    finally:
        os.close(descriptor)


class Sums:
    """Sums of what libraries are made of: the toolchain, their texts, and the libraries below them.
    A sum lies beside the library that was made: where it is the same, `rt` need not be asked."""

    def __init__(self, listed):
        self.listed, self.known = listed, {}
        self.toolchain = subprocess.run(["rt", "version"], capture_output=True, check=True).stdout

    def of(self, crate):
        if crate not in self.known:
            self.known[crate] = self.sum_of(crate)
        return self.known[crate]

    def sum_of(self, crate):
        total = hashlib.sha256(self.toolchain + self.listed[crate].line.encode())
        folder = os.path.join(ROOT, "crates", crate)
        for part in ("src", "specs", "proofs"):
            for at, folders, names in os.walk(os.path.join(folder, part)):
                folders.sort()
                for path in (os.path.join(at, name) for name in sorted(names)):
                    with open(path, "rb") as file:
                        total.update(repr((os.path.relpath(path, folder), file.read())).encode())
        for below in self.listed[crate].libraries:
            if below in self.listed:
                total.update(self.of(below).encode())
        return total.hexdigest()

    def is_beside(self, out, crate):
        with contextlib.suppress(FileNotFoundError), open(os.path.join(out, "rlib", "sum")) as file:
            return file.read() == self.of(crate)
        return False

    def put_beside(self, out, crate):
        with open(os.path.join(out, "rlib", "sum"), "w") as file:
            file.write(self.of(crate))


class NotBuilt(Exception):
    """A crate was not built. The text is what `rt` wrote of it."""


class Build:
    """A build of some crates and those below them. Those that are not done have their repositories
    in the folder `rooms`."""

    def __init__(self, rooms, names):
        self.rooms, self.commands = rooms, Commands()
        self.listed = listed_crates()
        self.crates = at_or_below(names, self.listed)
        self.sums = Sums(self.listed)
        self.done, self.counting = 0, threading.Lock()
        # removes the repositories of what is done, each of thousands of files, while the crates
        # above are worked on
        self.remover = ThreadPoolExecutor(1)

    def run(self):
        """Builds all that is not built yet."""
        tasks = {}
        for crate in self.crates:
            waits_for = [below for below in self.listed[crate].libraries if below in self.listed]
            tasks[crate] = Task(
                waits_for, work_of(ROOT, crate), functools.partial(self.build, crate)
            )
        with self.remover:
            in_lanes(tasks, processors(), self.commands)

    def build(self, crate, jobs, niceness):
        """Builds a crate, unless its library is there."""
        start, used = time.monotonic(), 0
        room = os.path.join(self.rooms, crate)
        if not self.sums.is_beside(out_of(ROOT, crate), crate):
            self.furnish(room, crate)
            used = self.prove(room, crate, jobs, niceness)
            self.put_back(room, crate)
        self.remover.submit(shutil.rmtree, room, ignore_errors=True)
        with self.counting:
            self.done += 1
            took = in_minutes(time.monotonic() - start)
            tell(
                f"{self.done} of {len(self.crates)} crates: {crate}, {took} "
                f"({in_minutes(used)} of processors)"
            )
        return True

    def furnish(self, room, crate):
        """Lays the crate out, with what is kept here unless an interrupted build left some."""
        lay_out(ROOT, crate, room)
        kept, own = out_of(ROOT, crate), out_of(room, crate)
        if os.path.isdir(kept) and not os.path.isdir(own):
            with alone_with(os.path.dirname(kept)):
                os.mkdir(own)
                for part in os.listdir(kept):
                    copy = link_tree if os.path.isdir(os.path.join(kept, part)) else shutil.copy2
                    copy(os.path.join(kept, part), os.path.join(own, part))

    def prove(self, room, crate, jobs, niceness):
        """Has `rt` prove the crate, and make the library or the program of it. Gives the processor
        seconds that it took."""
        folder = os.path.join(room, "crates", crate)
        words = (
            ["rt", "run", "--jobs", str(jobs), "--", "replay"]
            if crate == PROGRAM
            else library_words(folder, jobs)
        )
        with open(os.path.join(room, "log"), "w+", errors="replace") as log:
            command = self.commands.done(words, folder, log, niceness)
            if command.returncode != 0:
                log.seek(0)
                raise NotBuilt(f"{log.read()}linker: {crate} was not built")
        if crate != PROGRAM:
            self.sums.put_beside(out_of(room, crate), crate)
        return command.processor_seconds

    def put_back(self, room, crate):
        """Moves what was made of the crate to its place."""
        made, kept = out_of(room, crate), out_of(ROOT, crate)
        with alone_with(os.path.dirname(kept)):
            os.makedirs(kept, exist_ok=True)
            for part in os.listdir(made):
                discard(os.path.join(kept, part))
                shutil.move(os.path.join(made, part), os.path.join(kept, part))


def build(names):
    """Builds these crates, in rooms beside the repository, since checks look for crates everywhere
    in it, and files can be linked there. The program is then as old as the moment at which its
    texts began to be read."""
    start = time.time()
    rooms = os.path.join(os.path.dirname(ROOT), f".{os.path.basename(ROOT)}-building")
    os.makedirs(rooms, exist_ok=True)
    Build(rooms, names).run()
    with contextlib.suppress(OSError):
        os.rmdir(rooms)
    if PROGRAM in names:
        os.utime(os.path.join(out_of(ROOT, PROGRAM), PROGRAM), (start, start))


def main():
    names = sys.argv[1:] or [PROGRAM]
    unknown = [name for name in names if name not in listed_crates()]
    if unknown:
        sys.exit(f"linker: crates.txt lists no crate {unknown[0]}")
    if not shutil.which("rt"):
        sys.exit("linker: the toolchain's command rt is not on the PATH")
    # so that what it started ends with it
    for number in (signal.SIGINT, signal.SIGTERM, signal.SIGHUP):
        signal.signal(number, lambda number, _: sys.exit(128 + number))
    with alone_with(os.path.join(ROOT, "crates.txt")):
        if (
            names == [PROGRAM]
            and subprocess.run([os.path.join(ROOT, "bench", "is_built")]).returncode == 0
        ):
            return
        tell(
            "proving and building what is not built yet; "
            "all of it takes half an hour to an hour on four processors"
        )
        try:
            build(names)
        except NotBuilt as error:
            sys.exit(str(error))


if __name__ == "__main__":
    main()
