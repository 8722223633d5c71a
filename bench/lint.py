#!/usr/bin/env python3
"""How long `linker lint` takes a table of 64 KiB: one as teams write them, and tables that are made
to cost much. Of each row it prints the processor time of the whole program, the least of some
rounds, and how many entries are hidden.

usage: bench/lint.py [--rounds 5] [--program crates/linker/out/linker]
"""
import argparse, os, resource, subprocess, tempfile

HERE = os.path.dirname(os.path.abspath(__file__))

MOST_BYTES = 65_536
MOST_ENTRIES = 1_024


def numbered(entry, count=MOST_ENTRIES):
    """So many entries, each with its number for `{n}`, and the next one for `{m}`."""
    return [entry.format(n=n, m=n + 1) for n in range(count)]


def filled(front, item, last=""):
    """A tree of as many of the same item as fit behind these entries, in one entry more."""
    room = MOST_BYTES - sum(len(entry) + 1 for entry in front) - len("/a=>") - len(last)
    return [*front, "/a=>" + "|".join([item] * (room // (len(item) + 1))) + last]


def stars(number, labels):
    """A prefix of so many labels, with `*` at the places of the ones of a number."""
    return "".join("/*" if number >> at & 1 else "/b" for at in range(labels))


def teams():
    """Services with an entry for each environment, and general entries behind them."""
    kinds = [
        "/svc/users-{n:04d} => /host/users-{n} | /#/io.l5d.fs/users",
        "/svc/carts-{n:04d} => 9*/host/carts-new & 1*/host/carts-old",
        "/host/*/canary-{n:04d} => /$/inet/10.0.0.1/80 | $",
    ]
    entries = [kinds[n % len(kinds)].format(n=n) for n in range(MOST_ENTRIES - 2)]
    return [*entries, "/svc => /#/io.l5d.fs", "/host => /$/inet/10.0.0.1/80"]


ROWS = [
    ("as teams write it", teams()),
    ("each entry is sure by the next", numbered("/e{n}=>/e{m}", MOST_ENTRIES - 1) + ["/e1023=>!"]),
    ("each entry reaches each", ["/a=>" + "|".join(["/a"] * 19)] * MOST_ENTRIES),
    ("each entry is hidden by the last", ["/a" + "/b" * 25 + "=>!"] * MOST_ENTRIES),
    ("alternatives that nothing matches", filled(numbered("/e{n}=>~", MOST_ENTRIES - 1), "/x")),
    ("sure entries that cover none", numbered("/a" * 27 + "/{n}=>!")),
    ("entries that differ in the last bytes", numbered("/a=>" + "/b" * 25 + "/{n}")),
    (
        "other stars in each prefix",
        [stars(n, 10) + "/c" * 14 + f"/{n}=>!" for n in range(MOST_ENTRIES)],
    ),
    (
        "other stars in each prefix, and alternatives that match all of them",
        filled([stars(n, 10) + "=>~" for n in range(MOST_ENTRIES - 1)], "/b" * 10),
    ),
]


def spent():
    usage = resource.getrusage(resource.RUSAGE_CHILDREN)
    return usage.ru_utime + usage.ru_stime


def measured(program, path, rounds):
    """The least processor time of some runs, in seconds, and what the last one wrote."""
    least = float("inf")
    for _ in range(rounds):
        before = spent()
        done = subprocess.run([program, "lint", path], capture_output=True, check=True)
        least = min(least, spent() - before)
    return least, done.stdout.decode()


def main():
    parser = argparse.ArgumentParser(
        description=__doc__, formatter_class=argparse.RawDescriptionHelpFormatter
    )
    parser.add_argument("--rounds", type=int, default=5)
    program = os.path.join(HERE, "..", "crates", "linker", "out", "linker")
    parser.add_argument("--program", default=program)
    options = parser.parse_args()
    with tempfile.TemporaryDirectory() as folder:
        path = os.path.join(folder, "table")
        for name, entries in ROWS:
            text = ";".join(entries)
            assert len(text) <= MOST_BYTES and len(entries) <= MOST_ENTRIES, name
            with open(path, "w") as file:
                file.write(text)
            seconds, told = measured(options.program, path, options.rounds)
            counts = next(line for line in told.splitlines() if line.startswith("entries "))
            print(f"{1e3 * seconds:6.1f} ms  {len(text):6,} bytes, {counts}: {name}", flush=True)


if __name__ == "__main__":
    main()
