#!/usr/bin/env python3
"""Does the steps of the gate (`rt ci`) crate by crate, from nothing, and prints a line a crate: the
seconds that its proof takes, its tests with all that they prove again, its must-fail edits, and the
runs of a program as two compilers build it; and of the proof the functions that take longest.

usage: bench/gate.py [--jobs N]             all crates, in a fresh clone of what is committed
       bench/gate.py [--jobs N] NAME ..     these alone, as they lie here, over the libraries that
                                            are built here (bench/build.py)

N steps are done side by side, each on one processor; N is the number of processors where it is left
out. Seconds are those of the clock: beside other work they say little. """
import argparse, functools, os, re, shutil, signal, subprocess, sys, tempfile, threading, time

from over_crates import ROOT, at_or_below, listed_crates
from side_by_side import Commands, Task, in_lanes, lay_out, lines_of, processors, work_of

# The steps of a crate: its proof, its tests, its must-fail edits, and the runs of a program.
STEPS = ("proof", "tests", "edits", "runs")
SHOWN_FUNCTIONS = 5


class Gate:
    """The steps of some crates of a repository. Each is done in a room of its own, below the folder
    `rooms`."""

    def __init__(self, root, names, rooms):
        self.root, self.names, self.rooms = root, names, rooms
        self.commands, self.listed = Commands(), listed_crates(root)
        self.seconds, self.functions, self.printing = {}, {}, threading.Lock()

    def run(self, lanes, is_whole):
        """Does all steps, and tells whether all went well. In a whole repository nothing is built:
        a proof waits for those below, and gives them its library."""
        self.is_whole = is_whole
        print(
            f"{'crate':16} {'lines':>6}"
            + "".join(f"{step:>7}" for step in STEPS)
            + "  the functions whose proofs take longest",
            flush=True,
        )
        went_well = in_lanes(self.tasks(), lanes, self.commands)
        print(f"{'all':16} {'':6}" + "".join(f"{self.sum_of(step):7.0f}" for step in STEPS))
        if is_whole:
            length, crates = max(self.chain(crate) for crate in self.names)
            print(f"the longest chain of proofs takes {length:.0f}: {' '.join(crates)}")
        for crate, step in (key for key, is_well in went_well.items() if not is_well):
            print(f"the {step} of {crate} failed, or was not reached")
        return all(went_well.values())

    def tasks(self):
        tasks = {}
        for crate in self.names:
            size = work_of(ROOT, crate)
            for step in self.steps_of(crate):
                waits_for = [(crate, "proof")]
                if step == "proof":
                    waits_for = (
                        [(below, step) for below in self.below(crate)] if self.is_whole else []
                    )
                tasks[crate, step] = Task(waits_for, size, functools.partial(self.do, crate, step))
        return tasks

    def below(self, crate):
        return at_or_below([crate], self.listed)[:-1]

    def steps_of(self, crate):
        """The steps that there are for a crate."""
        folder = os.path.join(self.root, "crates", crate)
        there = {
            "proof": True,
            "tests": has_tests(os.path.join(folder, "src")),
            "edits": os.path.isdir(os.path.join(folder, "must-fail")),
            "runs": os.path.isfile(os.path.join(folder, "src", "main.rt")),
        }
        return [step for step in STEPS if there[step]]

    def do(self, crate, step, _jobs, _niceness):
        """Does a step. Behind the last one it prints the crate's line."""
        room = os.path.join(self.rooms, f"{crate}-{step}")
        lay_out(self.root, crate, room)
        start = time.monotonic()
        with open(f"{room}.log", "w+", errors="replace") as log:
            is_well = getattr(self, step)(crate, room, log)
            seconds = time.monotonic() - start
            if is_well and step == "proof" and self.is_whole:
                is_well = self.give_library(crate, room, log)
            log.seek(0)
            said = "" if is_well else f"{log.read()}gate: the {step} of {crate} failed\n"
        shutil.rmtree(room)
        with self.printing:
            print(said, end="", file=sys.stderr, flush=True)
            self.seconds[crate, step] = seconds
            if all((crate, it) in self.seconds for it in self.steps_of(crate)):
                print(self.line_of(crate), flush=True)
        return is_well

    def proof(self, crate, room, log):
        """Proves the crate, and notes how long each function took: one behind the other, each is
        told as it ends."""
        last, functions = None, []
        with self.commands.started(
            ["rt", "check", "--jobs", "1"], os.path.join(room, "crates", crate), subprocess.PIPE
        ) as check:
            for line in check.stdout:
                now = time.monotonic()
                log.write(line)
                function = re.match(r"checked (\S+), \d+ of \d+", line)
                # what comes before the first function, as the libraries and the definitions, is not
                # its own
                if function and last is not None:
                    functions.append((now - last, function[1].removeprefix(f"{crate}::")))
                if function or last is not None and line.startswith("so far"):
                    last = now
        self.functions[crate] = sorted(functions, reverse=True)
        return check.returncode == 0

    def give_library(self, crate, room, log):
        """Builds the library of a crate that is proved, and hands it to the crates above."""
        if "runs" in self.steps_of(crate):
            return True
        folder = os.path.join(room, "crates", crate)
        if self.commands.status_of(["rt", "lib", "--jobs", "1"], folder, log) != 0:
            return False
        shutil.move(
            os.path.join(folder, "out", "rlib"),
            os.path.join(self.root, "crates", crate, "out", "rlib"),
        )
        return True

    def tests(self, crate, room, log):
        return (
            self.commands.status_of(
                ["rt", "test", "--jobs", "1"], os.path.join(room, "crates", crate), log
            )
            == 0
        )

    def edits(self, crate, room, log):
        return self.commands.status_of(["rt", "must-fail", crate], room, log) == 0

    def runs(self, crate, room, log):
        folder = os.path.join(room, "crates", crate)
        with open(os.path.join(folder, "args")) as file:
            arguments = file.read().split()
        for compiler in ("llvm", "rattle"):
            words = ["rt", "run", "--jobs", "1", "--backend", compiler, "--", *arguments]
            if self.commands.status_of(words, folder, log) != 0:
                return False
        return True

    def line_of(self, crate):
        """What the steps of a crate took."""
        lines = lines_of(self.root, crate)
        steps = "".join(
            f"{self.seconds[crate, step]:7.0f}" if (crate, step) in self.seconds else f"{'-':>7}"
            for step in STEPS
        )
        longest = ", ".join(
            f"{name} {seconds:.0f}"
            for seconds, name in self.functions[crate][:SHOWN_FUNCTIONS]
            if seconds >= 1
        )
        return f"{crate:16} {lines:6}{steps}  {longest}"

    def sum_of(self, step):
        return sum(seconds for (_, done), seconds in self.seconds.items() if done == step)

    @functools.lru_cache(maxsize=None)
    def chain(self, crate):
        """The seconds of the longest chain of proofs that ends with a crate's, and the crates of
        it."""
        length, crates = max((self.chain(below) for below in self.below(crate)), default=(0, ()))
        return length + self.seconds.get((crate, "proof"), 0), (*crates, crate)


def has_tests(folder):
    """Whether a file of code below a folder has a test."""
    for at, _, names in os.walk(folder):
        for name in names:
            with open(os.path.join(at, name), errors="replace") as file:
                if "#[test]" in file.read():
                    return True
    return False


def main():
    parser = argparse.ArgumentParser(
        usage=__doc__.partition("usage: ")[2].partition("\n\nN steps")[0]
    )
    parser.add_argument("--jobs", type=int, default=processors())
    parser.add_argument("names", nargs="*")
    asked = parser.parse_args()
    listed = listed_crates()
    if not shutil.which("rt"):
        sys.exit("gate: the toolchain's command rt is not on the PATH")
    if not set(asked.names) <= set(listed):
        sys.exit("gate: crates.txt has no such crate")
    # so that what it started ends with it, and its folder goes
    for number in (signal.SIGINT, signal.SIGTERM, signal.SIGHUP):
        signal.signal(number, lambda number, _: sys.exit(128 + number))
    start = time.monotonic()
    with tempfile.TemporaryDirectory(prefix="gate-") as place:
        root, rooms = ROOT, os.path.join(place, "rooms")
        os.mkdir(rooms)
        if asked.names:
            below = [
                low
                for low in at_or_below(asked.names, listed)
                if any(low in at_or_below([name], listed)[:-1] for name in asked.names)
            ]
            if below:
                subprocess.run(
                    [sys.executable, os.path.join(ROOT, "bench", "build.py"), *below], check=True
                )
        else:
            root = os.path.join(place, "clone")
            subprocess.run(["git", "clone", "-q", ROOT, root], check=True)
        is_well = Gate(root, asked.names or list(listed), rooms).run(
            asked.jobs, is_whole=not asked.names
        )
    print(f"{(time.monotonic() - start) / 60:.1f} minutes")
    sys.exit(0 if is_well else 1)


if __name__ == "__main__":
    main()
