"""Works on several crates at once, each in a repository of its own.

While an `rt` runs, it keeps every crate below its own to itself. So two of them in one repository
mostly wait for each other. Here each crate gets a folder with what it stands on: copies of the
texts, and links to the libraries that are built of them. """
import collections, contextlib, os, shutil, subprocess, sys, threading
from concurrent.futures import FIRST_COMPLETED, ThreadPoolExecutor, wait

from over_crates import ROOT, at_or_below, listed_crates, share

# A task: the keys of those that it waits for, how much there is to do, and a call that does it with
# so many processors, at this niceness, and tells whether it went well.
Task = collections.namedtuple("Task", "waits_for size call")

# How a task of the longest chain is run, and how those beside it are, by `nice`.
FIRST, BESIDE = 0, 10

# In about how many seconds a check reads one of the libraries of statements below: the 49 below
# `linker_commands` took 20 on each processor.
SECONDS_A_LIBRARY = 0.5

# How many lines of code of a crate are proved in a second, where nothing better is known.
LINES_A_SECOND = 10

# The memory that a check may take, in bytes. A few take more, and `rt` makes a check again that was
# killed for it.
MEMORY_OF_A_CHECK = 3_000_000_000


def lay_out(root, name, place):
    """Lays a crate and what it stands on out in a folder, as they are in a repository whose
    libraries below it are built. What stays in the folder of an earlier time is the crate's own
    `out/`."""
    listed = listed_crates(root)
    crates = at_or_below([name], listed)
    os.makedirs(place, exist_ok=True)
    with open(os.path.join(place, "crates.txt"), "w") as file:
        file.writelines(f"{listed[crate].line}\n" for crate in crates)
    for crate in crates:
        source, target = os.path.join(root, "crates", crate), os.path.join(place, "crates", crate)
        os.makedirs(target, exist_ok=True)
        for part in os.listdir(target):
            if crate != name or part != "out":
                discard(os.path.join(target, part))
        shutil.copytree(source, target, ignore=shutil.ignore_patterns("out"), dirs_exist_ok=True)
        if crate != name:
            link_tree(os.path.join(source, "out", "rlib"), os.path.join(target, "out", "rlib"))


def link_tree(source, target):
    """Makes a folder with the same files as another: what is built is large, and its files are
    replaced and never changed."""
    shutil.copytree(source, target, copy_function=share)


def discard(path):
    """Removes a file, or a folder with all that is in it."""
    if os.path.isdir(path) and not os.path.islink(path):
        shutil.rmtree(path)
    else:
        with contextlib.suppress(FileNotFoundError):
            os.remove(path)


def lines_of(root, crate):
    """How many lines of code a crate has."""
    count = 0
    for at, _, names in os.walk(os.path.join(root, "crates", crate, "src")):
        for name in names:
            if name.endswith(".rt"):
                with open(os.path.join(at, name), "rb") as file:
                    count += file.read().count(b"\n")
    return count


def work_of(root, crate):
    """How much there is to do for a crate: about the seconds that its first proof takes on one
    processor."""
    with open(os.path.join(root, "bench", "proof_seconds.txt")) as file:
        listed = dict(line.split() for line in file if not line.startswith("#"))
    return int(listed.get(crate, 0)) or lines_of(root, crate) // LINES_A_SECOND


def library_words(folder, jobs):
    """The command that proves the crate in a folder and makes its library: of statements, unless
    there is what a check of the crate kept."""
    if os.path.isdir(os.path.join(folder, "out", "incremental")):
        return ["rt", "lib", "--jobs", str(jobs)]
    return [sys.executable, os.path.join(ROOT, "bench", "statements.py"), str(jobs)]


def checks_in_memory():
    """For how many checks at once there is memory."""
    with open("/proc/meminfo") as file:
        free = next(int(line.split()[1]) for line in file if line.startswith("MemAvailable:"))
    return 1024 * free // MEMORY_OF_A_CHECK


def processors():
    """How many processors there are to use, as far as there is memory for a check on each."""
    return max(1, min(len(os.sched_getaffinity(0)), checks_in_memory()))


class Commands:
    """Commands that run, which end when this script does."""

    def __init__(self):
        self.running, self.is_over, self.changing = set(), False, threading.Lock()

    @contextlib.contextmanager
    def started(self, words, folder, output, niceness=FIRST):
        """A command that runs in a folder with nothing on its standard input."""
        with self.changing:
            if self.is_over:
                raise InterruptedError
            command = subprocess.Popen(
                ["nice", "-n", str(niceness), *words],
                cwd=folder,
                stdin=subprocess.DEVNULL,
                stdout=output,
                stderr=subprocess.STDOUT,
                text=True,
                errors="replace",
            )
            self.running.add(command)
        try:
            yield command
            command.processor_seconds = 0
            # `end` may have been told already that the command ended, and then nobody is told again
            with contextlib.suppress(ChildProcessError):
                _, status, used = os.wait4(command.pid, 0)
                command.returncode = os.waitstatus_to_exitcode(status)
                command.processor_seconds = used.ru_utime + used.ru_stime
            command.wait()
        finally:
            with self.changing:
                self.running.discard(command)

    def done(self, words, folder, output, niceness=FIRST):
        """Runs a command to its end: its `returncode`, and the `processor_seconds` that it took."""
        with self.started(words, folder, output, niceness) as command:
            pass
        return command

    def status_of(self, words, folder, output):
        """Runs a command to its end, and gives its status."""
        return self.done(words, folder, output).returncode

    def end(self):
        """Ends those that run, and lets no other begin."""
        with self.changing:
            self.is_over = True
            for command in self.running:
                command.terminate()


def gains(tasks, key):
    """Whether a task is done sooner with several processors.

    A check with more than one reads the libraries below twice, one time after the other: to see
    what there is to prove, and then on each of its processors. So it has to have more than twice
    that to do of its own."""
    below, found = set(), [key]
    while found:
        fresh = [other for other in tasks[found.pop()].waits_for if other not in below]
        below.update(fresh)
        found += fresh
    reading = SECONDS_A_LIBRARY * len(below)
    return tasks[key].size - reading > 2 * reading


def in_lanes(tasks, lanes, commands):
    """Does tasks side by side on so many processors, and gives for each whether it went well.
    `tasks` has them by their keys, each behind those that it waits for.

    The one with the longest chain of others behind it comes first, since the whole takes no less
    time than that chain: it may use two processors, before all others, and up to four where no
    other task waits for them. (It has no more while others wait, since a check reads the libraries
    below on each of its processors.) Where it does not use its own, as at the end of a check, when
    its longest proof is left, those beside it do. They are as many as there is memory for. Without
    one that comes first, processors that no other task can use go to one task. But a task that
    would be done no sooner with more has one. What waits for one that did not go well isn't done.
    """
    chain = dict.fromkeys(tasks, 0)
    for key in reversed(list(tasks)):
        chain[key] += tasks[key].size
        for below in tasks[key].waits_for:
            chain[below] = max(chain[below], chain[key])
    left, running, went_well = sorted(tasks, key=lambda key: -chain[key]), {}, {}
    most = min(4, lanes)
    beside = max(0, min(lanes - 1, checks_in_memory() - most))
    with ThreadPoolExecutor(lanes + beside) as pool:
        try:
            while left or running:
                ready = [
                    key for key in left if all(below in went_well for below in tasks[key].waits_for)
                ]
                for at, key in enumerate(ready):
                    first = [jobs for _, jobs, niceness in running.values() if niceness == FIRST]
                    idle = (beside if first else lanes) - sum(
                        jobs for _, jobs, niceness in running.values() if niceness == BESIDE
                    )
                    others = [*left, *(other for other, _, _ in running.values())]
                    if not all(went_well[below] for below in tasks[key].waits_for):
                        went_well[key] = False
                    elif not first and all(chain[key] >= chain[other] for other in others):
                        jobs = min(most, max(2, lanes - len(ready) + 1)) if gains(tasks, key) else 1
                        running[pool.submit(tasks[key].call, jobs, FIRST)] = key, jobs, FIRST
                    elif idle > 0:
                        jobs = max(1, min(4, idle // (len(ready) - at))) if gains(tasks, key) else 1
                        running[pool.submit(tasks[key].call, jobs, BESIDE)] = key, jobs, BESIDE
                    else:
                        continue
                    left.remove(key)
                for done in wait(running, return_when=FIRST_COMPLETED).done:
                    key, _, _ = running.pop(done)
                    went_well[key] = done.result()
        except BaseException:
            commands.end()
            raise
    return went_well
