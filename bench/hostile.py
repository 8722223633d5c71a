#!/usr/bin/env python3
"""How long one pick takes `linker replay` whose request brings the worst table of its own, and how
much memory: each row is one line `pick PATH 0 0 0 0 TABLE`, with a table of at most 65,536 bytes,
as a client can send it in a field of its head. The last row is a `view`, whose table an operator
configured. Each runs on a stack of 4 MiB, half of what a worker's thread has.

What a delegation costs is bounded by its lookups and the bytes of the paths that are looked up; the
rows go to these bounds one by one.

usage: bench/hostile.py [PROGRAM]       (crates/linker/out/linker, if left out)
"""
import os, resource, signal, statistics, subprocess, sys, tempfile

HERE = os.path.dirname(os.path.abspath(__file__))

ROUNDS = 3
MOST_BYTES = 65_536
# So many bytes of the replies are looked at: the last reply begins in them.
LONGEST_SHOWN = 4_096
STACK_BYTES = 4 << 20

# As many branches as a union may have whose leaves are all looked up: with the lookup of the union
# itself there are 10,000.
BRANCHES = 9_999


def union(leaf, count=BRANCHES):
    return "&".join([leaf] * count)


def room(front, item):
    """How often an item fits behind the front of a table."""
    return (MOST_BYTES - len(front)) // len(item)


def filled(front, item):
    """A table with as many of the same item at its end as fit."""
    return front + item * room(front, item)


def shapes(count, labels):
    """So many prefixes of so many labels, each with `*` at other places."""
    names = []
    for number in range(1, count + 1):
        names.append("".join("/*" if number >> at & 1 else "/x" for at in range(labels)) + "=>~")
    return ";".join(names)


def long_prefixes(count, labels, last):
    """So many prefixes of so many labels, each of other stars but for the last label."""
    names = []
    for number in range(count):
        stars = "".join("/*" if number >> at & 1 else "/x" for at in range(labels - 1))
        names.append(stars + last + "=>~")
    return ";".join(names)


def nested(number, unions):
    """An entry whose leaf stands in so many unions of one branch each."""
    return f"/{number}=>" + "1*(" * (unions - 1) + f"1*/{number + 1}" + ")" * (unions - 1)


def chain(last, unions):
    """A chain of 99 such entries to an address."""
    return ";".join([nested(number, unions) for number in range(1, 99)] + [f"/99=>{last}"])


def rows():
    """The name of each row, its path, its table and how the reply begins."""
    spread = f"/s=>{union('/a')};"
    long_rest = "/x" * 1_000
    deep = "/d" + long_rest
    twice = f"/s=>{union('/b', 100)};/b=>{union('/a', 98)};"
    many = "/s" + "/x" * 30
    to_x = f"/s=>{union('/b', 100)};/b=>{union('/x', 98)};"
    address = "/$/inet/1.1.1.1/1"
    bound = f"/s=>{union('/b', 100)};/b=>{union(address, 98)}"
    return [
        # No alternative behind a `!` is tried: none is copied either.
        (
            "alternatives that are not tried, 9,999 times",
            "/s",
            filled(spread + "/a=>!", "|/c"),
            "failing",
        ),
        (
            "alternatives that are not tried, with 1,000 labels behind each",
            deep,
            filled("/d=>!", "|/a"),
            "failing",
        ),
        # Each lookup is of another path of 2,000 bytes, which is made of 1,000 labels.
        ("10,000 lookups of paths of 1,000 labels", deep, filled("/d=>/a", "&/a"), "too-wide"),
        (
            "a leaf of 60,000 bytes, with 1,000 labels behind it",
            deep,
            "/d=>" + "/y" * 30_000,
            "too-deep",
        ),
        # Each alternative and each branch is tried; none is a lookup.
        (
            "alternatives that are all negative, 9,999 times",
            "/s",
            filled(spread + "/a=>~", "|~"),
            "negative",
        ),
        ("branches that all fail, 9,999 times", "/s", filled(spread + "/a=>!", "&!"), "failing"),
        (
            "branches of weight 0, 9,999 times",
            "/s",
            filled(spread + "/a=>0*/c", "&0*/c"),
            "negative",
        ),
        (
            "marks and unions of a mark, 9,800 times",
            "/s",
            filled(twice + "/a=>~", "|1*~|~"),
            "negative",
        ),
        # Entries that match, and entries of other shapes, which are looked for one by one.
        (
            "1,000 entries that match, 9,999 times",
            "/s",
            spread + ";".join(["/a=>~"] * 1_000),
            "negative",
        ),
        (
            "1,000 entries of 30 labels that match, 9,800 times",
            many,
            to_x + ";".join(["/x" * 30 + "=>~"] * 1_000),
            "negative",
        ),
        (
            "1,000 shapes of prefixes, 9,999 times",
            "/s/" + "x" * 1_900 + "/x" * 11,
            spread + shapes(1_000, 11),
            "negative",
        ),
        (
            "1,000 shapes of 30 labels, 9,800 times",
            many,
            to_x + long_prefixes(1_000, 30, "/y"),
            "negative",
        ),
        (
            "1,000 shapes of 30 labels that match, 9,800 times",
            many,
            to_x + long_prefixes(1_000, 30, "/x"),
            "negative",
        ),
        # Each leaf that is bound keeps the labels behind its own; and unions that stand in each
        # other.
        (
            "9,800 bound leaves with 1,000 labels behind each",
            "/s" + long_rest,
            bound,
            f"1.1.1.1:1 {address} /x/x",
        ),
        ("6,300 unions in each other", "/1", chain(address, 64), f"1.1.1.1:1 {address} /"),
    ]


def views():
    """So are the rows of views."""
    long_rest = "/x" * 1_000
    address = "/$/inet/1.1.1.1/1"
    bound = f"/s=>{union('/b', 100)};/b=>{union(address, 98)}"
    return [
        (
            "a view of 9,901 lookups of paths of 1,000 labels",
            "/s" + long_rest,
            bound,
            '{"lookups":[{"depth":0,"outcome":"bound"',
        )
    ]


def small_stack():
    resource.setrlimit(resource.RLIMIT_STACK, (STACK_BYTES, STACK_BYTES))


def run(program, script_text):
    """One run: the seconds of processor time, the most memory in MiB (never less than this script's
    own), and the last line of the reply."""
    with tempfile.TemporaryFile() as script, tempfile.TemporaryFile() as out:
        script.write(script_text)
        script.seek(0)
        child = subprocess.Popen(
            [program, "replay"], stdin=script, stdout=out, preexec_fn=small_stack
        )
        _, status, use = os.wait4(child.pid, 0)
        child.returncode = os.waitstatus_to_exitcode(status)
        out.seek(0)
        # (a child begins with this script's own memory, which is to stay small)
        lines = out.read(LONGEST_SHOWN).decode().splitlines() or [""]
        told = lines[-1] if child.returncode >= 0 else signal.Signals(-child.returncode).name
        return use.ru_utime + use.ru_stime, use.ru_maxrss / 1024, told


def measure(program, name, table, script_text, reply):
    done = [run(program, script_text.encode()) for _ in range(ROUNDS)]
    seconds = statistics.median(d[0] for d in done)
    told = done[0][2]
    shown = reply if told.startswith(reply) else f"{told[:40]}, and not {reply}"
    print(
        f"| {name} | {len(table):,} | {shown} | {seconds:.3f} | {max(d[1] for d in done):.1f} |",
        flush=True,
    )


def main():
    program = (
        sys.argv[1]
        if len(sys.argv) > 1
        else os.path.join(HERE, "..", "crates", "linker", "out", "linker")
    )
    print("| row | bytes of the table | reply | CPU s | MiB |")
    print("|---|---|---|---|---|")
    for name, path, table, reply in rows():
        assert len(table) <= MOST_BYTES and len(path) <= 2_048, name
        measure(program, name, table, f"pick {path} 0 0 0 0 {table}\n", reply)
    for name, path, table, reply in views():
        measure(program, name, table, f"dtab {table}\nview {path}\n", reply)


if __name__ == "__main__":
    main()
