#!/usr/bin/env python3
"""How many picks a second `linker replay` answers: a table of so many entries, and so many picks of
random paths in it.

usage: bench/picks.py [--entries 1000] [--picks 200000] [--rounds 5]
                      [--program crates/linker/out/linker]
"""
import argparse, os, random, resource, statistics, subprocess, tempfile, time

HERE = os.path.dirname(os.path.abspath(__file__))


def main():
    parser = argparse.ArgumentParser(
        description=__doc__, formatter_class=argparse.RawDescriptionHelpFormatter
    )
    parser.add_argument("--entries", type=int, default=1000)
    parser.add_argument("--picks", type=int, default=200_000)
    parser.add_argument("--rounds", type=int, default=5)
    parser.add_argument(
        "--program", default=os.path.join(HERE, "..", "crates", "linker", "out", "linker")
    )
    options = parser.parse_args()

    chance = random.Random(1)
    table = ";".join(
        f"/svc/h{i:04d} => /$/inet/127.0.0.1/{1000 + i}" for i in range(options.entries)
    )
    with tempfile.TemporaryFile() as script:
        script.write(f"dtab {table}\n".encode())
        for _ in range(options.picks):
            script.write(f"pick /svc/h{chance.randrange(options.entries):04d}/a\n".encode())
        size = script.tell()
        seconds = []
        for _ in range(options.rounds):
            script.seek(0)
            before = resource.getrusage(resource.RUSAGE_CHILDREN)
            start = time.perf_counter()
            done = subprocess.run(
                [options.program, "replay"], stdin=script, stdout=subprocess.PIPE, check=True
            )
            wall = time.perf_counter() - start
            after = resource.getrusage(resource.RUSAGE_CHILDREN)
            seconds.append(
                (after.ru_utime + after.ru_stime - before.ru_utime - before.ru_stime, wall)
            )
            assert done.stdout.count(b"\n") == options.picks + 1
    processor = statistics.median(s[0] for s in seconds)
    wall = statistics.median(s[1] for s in seconds)
    print(f"{options.entries} entries, {options.picks} picks, {size / 1e6:.1f} MB of script")
    print(
        f"{options.picks / processor:,.0f} picks per second of processor time "
        f"({processor:.3f} s; wall {wall:.3f} s), median of {options.rounds}"
    )


if __name__ == "__main__":
    main()
