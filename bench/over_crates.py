"""Runs a small program over some of the repository's crates, in a folder of its own."""
import collections, os, shutil, subprocess, sys, tempfile

ROOT = os.path.dirname(os.path.dirname(os.path.abspath(__file__)))

# What crates.txt says of a crate: its line, and the libraries that it stands on.
Listed = collections.namedtuple("Listed", "line libraries")


def listed_crates(root=ROOT):
    """What crates.txt says of each crate, by the crate's name. Lower crates come first."""
    listed = {}
    with open(os.path.join(root, "crates.txt")) as file:
        for line in file:
            line = line.partition("#")[0].strip()
            head, colon, libraries = line.partition(":")
            if colon:
                listed[head.split()[0]] = Listed(line, libraries.split())
    return listed


def at_or_below(named, listed):
    """The crates of the repository among these libraries and below them, lower ones first."""
    reached, waiting = set(), list(named)
    while waiting:
        name = waiting.pop()
        if name in listed and name not in reached:
            reached.add(name)
            waiting.extend(listed[name].libraries)
    return [name for name in listed if name in reached]


def left_out(folder, names):
    """What is not copied of a crate: its must-fail edits, and what checks keep, but for the
    library."""
    if os.path.basename(folder) == "out":
        return [name for name in names if name != "rlib"]
    return [name for name in names if name == "must-fail"]


def share(source, target):
    """Links a file, or copies it where it can't be linked: built libraries are large."""
    try:
        os.link(source, target)
    except OSError:
        shutil.copy2(source, target)


def output_of(name, program, named, proofs=None):
    """The standard output of `rt run` for a program over the named libraries, which is proved and
    built first, as are those that are not built yet.

    `program` is the text of its main.rt, and `proofs` has the texts of its proof files by their
    paths. The command is that of the environment's RT, if it is set. Where it fails, the script
    ends with what it wrote."""
    command = os.environ.get("RT", "rt")
    if not shutil.which(command):
        sys.exit(f"{name}: the toolchain's command {command} was not found")
    listed = listed_crates()
    with tempfile.TemporaryDirectory(prefix=f"{name}-") as work:
        lines = []
        for crate in at_or_below(named, listed):
            shutil.copytree(
                os.path.join(ROOT, "crates", crate),
                os.path.join(work, "crates", crate),
                ignore=left_out,
                copy_function=share,
            )
            lines.append(f"{listed[crate].line}\n")
        lines.append(f"{name}: {' '.join(named)}\n")
        with open(os.path.join(work, "crates.txt"), "w") as file:
            file.writelines(lines)
        shutil.copy(os.path.join(ROOT, "HANDLES"), work)
        folder = os.path.join(work, "crates", name)
        os.makedirs(os.path.join(folder, "src"))
        with open(os.path.join(folder, "src", "main.rt"), "w") as file:
            file.write(program)
        for path, text in (proofs or {}).items():
            os.makedirs(os.path.dirname(os.path.join(folder, path)), exist_ok=True)
            with open(os.path.join(folder, path), "w") as file:
                file.write(text)
        done = subprocess.run([command, "run"], cwd=folder, capture_output=True, text=True)
    if done.returncode != 0:
        sys.exit(f"{done.stdout}{done.stderr}{name}: rt run ended with status {done.returncode}")
    return done.stdout


def print_output_of(name, program, named):
    """Prints those lines of such a program that begin with its name and a colon, without these."""
    for line in output_of(name, program, named).splitlines():
        if line.startswith(f"{name}: "):
            print(line.removeprefix(f"{name}: "))
