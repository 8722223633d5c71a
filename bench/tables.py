#!/usr/bin/env python3
"""How fast `linker replay` reads tables: a script of `dtab` lines, each a table of the whole
grammar of some 65,000 bytes.

usage: bench/tables.py [--tables 200] [--rounds 5] [--program crates/linker/out/linker]
"""
import argparse, os, resource, statistics, subprocess, tempfile

HERE = os.path.dirname(os.path.abspath(__file__))

MOST_BYTES = 65_536
MOST_ENTRIES = 1_024

# One entry of each kind: a plain path, a union with weights, alternatives in parentheses, a star,
# an escape.
KINDS = [
    "/svc/users-frontend-{i:04d}.example => /$/inet/127.0.0.1/{port}",
    "/svc/users-{i:04d} => 0.3 * /host/users-new-{i} & 0.7 * /host/users-old-{i}",
    "/svc/carts-{i:04d} => (/host/carts-new-{i} | 2*/host/carts-old & !) | ~",
    "/zone/*/prices-{i:04d} => /host/prices-of-the-zone-{i} | $",
    "/svc/escaped\\x2f{i:04d} => /host/escaped\\x2F{i}/and-more",
]


def table(chance_of_kind):
    entries, size = [], 0
    for i in range(MOST_ENTRIES):
        entry = KINDS[chance_of_kind(i)].format(i=i, port=1024 + i)
        if size + len(entry) + 2 > MOST_BYTES - 1:
            break
        entries.append(entry)
        size += len(entry) + 2
    return "; ".join(entries), len(entries)


def main():
    parser = argparse.ArgumentParser(
        description=__doc__, formatter_class=argparse.RawDescriptionHelpFormatter
    )
    parser.add_argument("--tables", type=int, default=200)
    parser.add_argument("--rounds", type=int, default=5)
    parser.add_argument(
        "--program", default=os.path.join(HERE, "..", "crates", "linker", "out", "linker")
    )
    options = parser.parse_args()

    text, entries = table(lambda i: i % len(KINDS))
    with tempfile.TemporaryFile() as script:
        for _ in range(options.tables):
            script.write(f"dtab {text}\n".encode())
        size = script.tell()
        seconds = []
        for _ in range(options.rounds):
            script.seek(0)
            before = resource.getrusage(resource.RUSAGE_CHILDREN)
            done = subprocess.run(
                [options.program, "replay"], stdin=script, stdout=subprocess.PIPE, check=True
            )
            after = resource.getrusage(resource.RUSAGE_CHILDREN)
            seconds.append(after.ru_utime + after.ru_stime - before.ru_utime - before.ru_stime)
            assert done.stdout == b"ok\n" * options.tables
    processor = statistics.median(seconds)
    print(
        f"{options.tables} tables of {entries} entries and {len(text)} bytes, "
        f"{size / 1e6:.1f} MB of script"
    )
    print(
        f"{size / 1e6 / processor:.1f} MB per second of processor time, "
        f"{1e3 * processor / options.tables:.2f} ms a table, median of {options.rounds}"
    )


if __name__ == "__main__":
    main()
