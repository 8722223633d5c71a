#!/usr/bin/env python3
"""Reads pages, runs the commands that stand in them on the built program, and compares what they
write with what the page shows.

usage: bench/pages.py [--program PROGRAM] [PAGE ..]

    PROGRAM is crates/linker/out/linker where it is left out. Without a PAGE all are run: README.md
    and CONTRIBUTING.md, the pages of docs/, examples/README.md and those of its folders.
    (bench/page_texts.py looks at their links, widths and sentences.)

What is run is told by the language of a code block:

    sh          is run as a whole, and has to end with status 0; what it writes is not compared
    console     has commands, each after `$ `, and after each what it writes
    any other   is not run: what needs another machine, or changes this one, is `bash`

A page is run by one shell from its top to its end, in a folder of its own that is laid out as a
checkout in which the program is built, a page of an example in the example's folder. The shell has
`linker` on its PATH, and a network of its own where the system allows that (as root on Linux): else
the pages' ports have to be free. A page may show lines of standard error, or leave them out.

A comment `<!-- counts: "TEXT" LEAST MOST, .. -->` before a console block says that in its lines
`NUMBER TEXT` the number is random, and may be from LEAST to MOST. A comment
`<!-- needs: COMMAND .. -->` says that the page is not run where one of these commands is missing.

It ends with 0 where all is as the pages say.
"""
import argparse, contextlib, ctypes, fcntl, glob, os, re, selectors, shlex, shutil, signal, socket
import struct, subprocess, sys, tempfile, time

from page_texts import ROOT, pages_of

# How long a command may take, and how long the rest of what it is to write may come after it.
MOST_SECONDS = 120
LATE_SECONDS = 10

# A command that starts a job in the background. The job has begun once the page's processes were
# found idle so often, with so many seconds between two looks.
STARTS_JOB = re.compile(r"(?<![&>])&\s", re.MULTILINE)
IDLE_LOOKS = 10
LOOK_SECONDS = 0.2

# What the proxy writes as a job in the background, which may come before what the command writes.
OF_A_JOB = re.compile(r"(serving|closed) ")

# A shell that carries out the commands that it reads on a descriptor, each up to a byte 0. After
# what one wrote it writes a byte 30, its status, and a byte 30.
SHELL = r"""
while IFS= read -r -d '' -u COMMANDS command; do
    eval "$command" </dev/null COMMANDS<&-
    printf '\036%d\036' $?
done
"""

CLONE_NEWNET = 0x40000000
SIOCSIFFLAGS = 0x8914
IFF_UP_RUNNING = 0x1 | 0x40


def enter_own_network():
    """Gives this process a network of its own, with a loopback that is up, where it may."""
    if ctypes.CDLL(None, use_errno=True).unshare(CLONE_NEWNET) == 0:
        with socket.socket() as any_socket:
            request = struct.pack("16sh", b"lo", IFF_UP_RUNNING)
            fcntl.ioctl(any_socket, SIOCSIFFLAGS, request)


class Step:
    """A command of a page, with the line where it stands and what it is to write, if that is
    compared."""

    def __init__(self, line, command, written=None, bounds=()):
        self.line, self.command, self.written, self.bounds = line, command, written, dict(bounds)

    def is_as_written(self, written, errors, status):
        """Whether the page shows what was written. It may show lines of standard error."""
        if self.written is None:
            return status == 0
        told, came = lines_of(errors), lines_of(written)
        shown = [line for line in lines_of(self.written) if line in came or line not in told]
        if any(map(OF_A_JOB.match, shown)):
            shown, came = sorted(shown), sorted(came)
        return len(shown) == len(came) and all(map(self.is_alike, shown, came))

    def is_alike(self, shown, came):
        number, _, text = came.strip().partition(" ")
        if text in self.bounds and number.isdecimal() and shown.strip().endswith(f" {text}"):
            least, most = self.bounds[text]
            return least <= int(number) <= most
        return shown == came


def lines_of(text):
    return [line.rstrip() for line in text.rstrip("\n").split("\n")] if text.strip("\n") else []


def blocks_of(text):
    """The code blocks of a page: the line of each, its language, its lines, and the comment that
    stands right before it."""
    block, comment = None, ""
    for number, line in enumerate(text.split("\n"), 1):
        fence = re.match(r"( *)```(\w*)\s*$", line)
        if block is None and fence:
            block = (number, fence[2], len(fence[1]), [])
        elif block and line.strip() == "```":
            yield block[0], block[1], block[3], comment
            block, comment = None, ""
        elif block:
            block[3].append(line[block[2] :] if not line[: block[2]].strip() else line)
        elif line.strip():
            comment = line.strip() if line.strip().startswith("<!--") else ""


def bounds_of(comment):
    found = re.match(r"<!-- counts: (.*) -->$", comment)
    for part in found[1].split(", ") if found else []:
        text, least, most = shlex.split(part)
        yield text, (int(least), int(most))


def steps_of(text):
    """The commands of a page, in their order."""
    for line, language, lines, comment in blocks_of(text):
        if language == "sh":
            yield Step(line, "\n".join(lines) + "\n")
        elif language == "console":
            step, bounds = None, list(bounds_of(comment))
            for number, content in enumerate(lines, line + 1):
                if content.startswith("$ ") and not is_shown_by(step):
                    if step:
                        yield step
                    step = Step(number, content[2:], "", bounds)
                elif step:
                    step.written += content + "\n"
            if step:
                yield step


def missing_of(text):
    """The commands that a page needs, of those that are not there."""
    needed = [name for found in re.findall(r"<!-- needs: (.*) -->", text) for name in found.split()]
    return [name for name in needed if not shutil.which(name)]


def is_shown_by(step):
    """Whether a command writes commands itself, as the demo does."""
    return step is not None and step.command == "./demo"


class Shell:
    """A shell of a page. What it and its jobs write comes to one place."""

    def __init__(self, folder, program, errors):
        self.errors = errors
        commands, self.commands = os.pipe()
        self.process = subprocess.Popen(
            ["bash", "--noprofile", "--norc", "-c", SHELL.replace("COMMANDS", str(commands))],
            cwd=folder,
            env={**os.environ, "PATH": f"{os.path.dirname(program)}:{os.environ['PATH']}"},
            stdin=subprocess.DEVNULL,
            stdout=subprocess.PIPE,
            stderr=errors,
            pass_fds=[commands],
            start_new_session=True,
            preexec_fn=enter_own_network,
        )
        os.close(commands)
        self.written = self.process.stdout.fileno()
        os.set_blocking(self.written, False)
        self.ready = selectors.DefaultSelector()
        self.ready.register(self.written, selectors.EVENT_READ)

    def pieces(self, seconds):
        """What is written within so many seconds, piece by piece."""
        end = time.monotonic() + seconds
        while (left := end - time.monotonic()) > 0:
            if not self.ready.select(left):
                return
            piece = os.read(self.written, 65_536)
            if not piece:
                return
            yield piece

    def told(self):
        """What was written on standard error."""
        self.errors.seek(0)
        return self.errors.read()

    def run(self, step):
        """Carries a command out. Gives what was written, also on standard error, and the status."""
        self.errors.truncate(0)
        os.write(self.commands, step.command.encode() + b"\0")
        came, status = b"", None
        for piece in self.pieces(MOST_SECONDS):
            came += piece
            if ended := re.search(rb"\x1e(\d+)\x1e", came):
                came, status = came[: ended.start()] + came[ended.end() :], int(ended[1])
                break
        if not step.written and STARTS_JOB.search(f"{step.command}\n"):
            self.let_jobs_begin()
        # A job in the background writes when it begins to serve, and when it has ended.
        end = time.monotonic() + LATE_SECONDS
        while True:
            written, errors = self.text(came), self.told()
            if step.is_as_written(written, errors, status) or time.monotonic() > end:
                return written, errors, status
            for piece in self.pieces(0.1):
                came += piece

    def let_jobs_begin(self):
        """Waits until the page's processes have been idle for a while, on a busy machine too."""
        idle, end = 0, time.monotonic() + MOST_SECONDS
        while idle < IDLE_LOOKS and time.monotonic() < end:
            time.sleep(LOOK_SECONDS)
            idle = 0 if self.is_busy() else idle + 1

    def is_busy(self):
        """Whether a process of the page runs, is ready to run, or waits for a disk."""
        for path in glob.glob("/proc/[0-9]*/stat"):
            with contextlib.suppress(OSError), open(path) as file:
                state, _, _, session, *_ = file.read().rpartition(")")[2].split()
                if int(session) == self.process.pid and state in "RD":
                    return True
        return False

    @staticmethod
    def text(came):
        return came.decode(errors="replace").replace("\r", "")

    def end(self):
        """Ends the shell and all jobs of it."""
        os.close(self.commands)
        os.killpg(self.process.pid, signal.SIGKILL)
        self.process.wait()


def lay_out(folder, program):
    """Lays a folder out as a checkout in which the program is built. Gives the program's path."""
    for name in ("demo", "linker"):
        shutil.copy2(os.path.join(ROOT, name), os.path.join(folder, name))
    shutil.copytree(os.path.join(ROOT, "examples"), os.path.join(folder, "examples"))
    is_built = os.path.join(folder, "bench", "is_built")
    os.mkdir(os.path.dirname(is_built))
    with open(is_built, "w") as file:
        file.write("#!/bin/sh\nexit 0\n")
    os.chmod(is_built, 0o755)
    built = os.path.join(folder, "crates", "linker", "out", "linker")
    os.makedirs(os.path.dirname(built))
    shutil.copy2(program, built)
    os.chmod(built, 0o755)
    return built


def run_page(page, program):
    """Runs a page, and gives how many commands it has and how many wrote something else."""
    with open(os.path.join(ROOT, page)) as file:
        text = file.read()
    steps = list(steps_of(text))
    if missing := missing_of(text):
        print(f"{page}: not run, since there is no {' and no '.join(missing)}")
    if not steps or missing:
        return 0, 0
    wrong = 0
    with tempfile.TemporaryDirectory(prefix="pages-") as folder:
        built = lay_out(folder, program)
        at = os.path.dirname(page) if page.startswith("examples/") else ""
        with open(os.path.join(folder, "errors"), "a+", errors="replace") as errors:
            shell = Shell(os.path.join(folder, at), built, errors)
            try:
                for step in steps:
                    came = shell.run(step)
                    if not step.is_as_written(*came):
                        wrong += 1
                        tell_difference(page, step, *came)
            finally:
                shell.end()
    return len(steps), wrong


def tell_difference(page, step, written, errors, status):
    print(f"{page}:{step.line}: {step.command.strip()}")
    if step.written is not None:
        print("  shows:\n" + "".join(f"    {line}\n" for line in lines_of(step.written)), end="")
    print(f"  wrote, with status {status}:")
    print("".join(f"    {line}\n" for line in lines_of(written)), end="")
    if errors.strip():
        print("  and on standard error:")
        print("".join(f"    {line}\n" for line in lines_of(errors)), end="")


def main():
    parser = argparse.ArgumentParser(
        description=__doc__, formatter_class=argparse.RawDescriptionHelpFormatter
    )
    built = os.path.join(ROOT, "crates", "linker", "out", "linker")
    parser.add_argument("--program", default=built)
    parser.add_argument("pages", nargs="*", metavar="PAGE")
    words = parser.parse_args()
    if not os.access(words.program, os.X_OK):
        sys.exit(f"pages: {words.program} is not there; ./linker builds it")
    all_wrong = 0
    for page in pages_of(words.pages):
        steps, wrong = run_page(page, words.program)
        if steps:
            print(f"{page}: {steps} commands, {wrong or 'none'} with another output", flush=True)
        all_wrong += wrong
    sys.exit(1 if all_wrong else 0)


if __name__ == "__main__":
    main()
