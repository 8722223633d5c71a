#!/usr/bin/env python3
"""Runs the built program `linker` where each status but 6 and 7 is due, and compares the status and
both outputs. (bench/starve.py has 7.)

The input of status 4 is a folder, which can't be read, and so is its configuration; the output of
status 5 is /dev/full, which takes nothing.

usage: bench/statuses.py [--program crates/linker/out/linker]
"""
import argparse, os, subprocess, sys, tempfile

HERE = os.path.dirname(os.path.abspath(__file__))

# The most bytes of a script.
MOST = 67_108_864

# The most bytes of a configuration, a good one, and the line that tells so.
MOST_CONFIG = 1_048_576
CONFIG = b'{"routers":[{"protocol":"http"}]}'
GOOD = b"ok router 127.0.0.1:4140 namerd 127.0.0.1:4180 admin 127.0.0.1:9990\n"

# What is written to standard error where the configured table covers the prefix of requests' paths.
COVERED = (
    b"linker: an entry of routers[0].dtab covers routers[0].dstPrefix, "
    b"so it is tried before every entry of the namespace\n"
)

# Generated runs, and the lines that sum them up.
RUNS = [
    ("storm", 0, 7, b"changes 1 refused 0 picked 0 none 0 ports 0"),
    ("storm", 1_000, 1, b"changes 334 refused 168 picked 242 none 257 ports 809971"),
    ("storm", 100_000, 7, b"changes 31178 refused 18675 picked 20804 none 29344 ports 63923968"),
    ("storm", 0, 2**64 - 1, b"changes 1 refused 0 picked 0 none 0 ports 0"),
    ("weave", 0, 7, b"history 1 looks 0 kept 0"),
    ("weave", 1_000, 1, b"history 254 looks 127 kept 3"),
    ("weave", 100_000, 7, b"history 25133 looks 12522 kept 466"),
]

# What is written to standard error where the words fit no command, and nowhere else.
USAGE = b"usage: linker replay"


def main():
    parser = argparse.ArgumentParser(
        description=__doc__, formatter_class=argparse.RawDescriptionHelpFormatter
    )
    parser.add_argument(
        "--program", default=os.path.join(HERE, "..", "crates", "linker", "out", "linker")
    )
    program = parser.parse_args().program
    wrong = []

    def check(what, words, stdin, status, written, stdout=subprocess.PIPE, warning=b""):
        done = subprocess.run([program, *words], stdin=stdin, stdout=stdout, stderr=subprocess.PIPE)
        told = done.stderr.startswith(USAGE) if status == 2 else done.stderr == warning
        is_right = done.returncode == status and (done.stdout or b"") == written and told
        print(f"{'right' if is_right else 'WRONG'}: {what}: status {done.returncode}")
        if not is_right:
            wrong.append(what)

    with tempfile.TemporaryDirectory() as folder:

        def script(text):
            path = os.path.join(folder, "script")
            with open(path, "wb") as file:
                file.write(text)
            return open(path, "rb")

        def config(text):
            path = os.path.join(folder, "c.json")
            with open(path, "wb") as file:
                file.write(text)
            return path

        def blanks(count):
            path = os.path.join(folder, "blanks")
            with open(path, "wb") as file:
                for _ in range(count // 65_536):
                    file.write(b"\n" * 65_536)
                file.write(b"\n" * (count % 65_536))
            return open(path, "rb")

        sample = b"dtab /a => /$/inet/127.0.0.1/80\npick /a/b\n"
        replies = b"ok\n127.0.0.1:80 /$/inet/127.0.0.1/80 /b\n"
        check("a script", ["replay"], script(sample), 0, replies)
        check("no script", ["replay"], subprocess.DEVNULL, 0, b"")
        for words, place in [
            ([], 1),
            ([""], 1),
            (["--help"], 1),
            (["replays"], 1),
            (["replay", "x"], 2),
            (["replay", "replay"], 2),
            ([b"\xff"], 1),
            (["check"], 2),
            (["check", "-"], 2),
            (["check", "c", "d"], 3),
        ]:
            check(f"words {words}", words, script(sample), 2, b"error words %d\n" % place)
        check(
            "a bad line",
            ["replay"],
            script(sample + b"picks /a\n" + sample),
            3,
            replies + b"error line 3\n",
        )
        descriptor = os.open(folder, os.O_RDONLY)
        check("an input that can't be read", ["replay"], descriptor, 4, b"error read\n")
        os.close(descriptor)
        with open("/dev/full", "wb") as full:
            check("an output that takes nothing", ["replay"], script(sample), 5, b"", full)
        check("the longest script", ["replay"], blanks(MOST), 0, b"")
        check("a byte more", ["replay"], blanks(MOST + 1), 8, b"error long\n")

        def told(what, path, status, written, stdout=subprocess.PIPE, warning=b""):
            check(what, ["check", path], subprocess.DEVNULL, status, written, stdout, warning)

        told("the example", os.path.join(HERE, "..", "examples", "linker.json"), 0, GOOD)
        for table, warning in [
            (b"/svc => /host", COVERED),
            (b"/*/web => !; / => /host", COVERED),
            (b"/svc/web => /host", b""),
            (b"/host => /svc", b""),
        ]:
            told(
                f"the table {table.decode()}",
                config(CONFIG.replace(b"}]", b',"dtab":"%s"}]' % table)),
                0,
                GOOD,
                warning=warning,
            )
        told("the longest configuration", config(CONFIG.ljust(MOST_CONFIG)), 0, GOOD)
        told("a byte more", config(CONFIG.ljust(MOST_CONFIG + 1)), 3, b"error config long\n")
        told("no configuration", os.path.join(folder, "none"), 3, b"error config absent\n")
        told("a file in a file", os.path.join(config(CONFIG), "none"), 3, b"error config absent\n")
        told("no JSON", config(b"["), 3, b"error config json\n")
        told("no router", config(b"{}"), 3, b"error config routers missing\n")
        told("a configuration that can't be read", folder, 4, b"error read\n")
        with open("/dev/full", "wb") as full:
            told("a line that can't be written", config(CONFIG), 5, b"", full)

        for command, turns, seed, line in RUNS:
            check(
                f"{command} {turns} {seed}",
                [command, str(turns), str(seed)],
                subprocess.DEVNULL,
                0,
                line + b"\n",
            )
        for words, place in [
            (["storm"], 2),
            (["storm", "5"], 3),
            (["storm", "01", "5"], 2),
            (["storm", "1000001", "5"], 2),
            (["weave", "5", "x"], 3),
            (["weave", "5", str(2**64)], 3),
            (["weave", "5", "7", "x"], 4),
        ]:
            check(f"words {words}", words, subprocess.DEVNULL, 2, b"error words %d\n" % place)
        with open("/dev/full", "wb") as full:
            check(
                "a run's line that can't be written",
                ["storm", "0", "7"],
                subprocess.DEVNULL,
                5,
                b"",
                full,
            )

    if wrong:
        sys.exit(f"wrong: {', '.join(wrong)}")


if __name__ == "__main__":
    main()
