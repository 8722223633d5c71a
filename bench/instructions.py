#!/usr/bin/env python3
"""Counts the instructions of a request in `linker serve`: `bench/instructions.py [PROGRAM]`.

Unlike times, instructions are the same whatever else the machine does. `valgrind --tool=callgrind`
counts those of a whole run, so each figure is the difference of two runs, of 1,000 requests and of
3,000, over one connection of a client to one worker. What the kernel does is not counted: `strace`
tells the system calls (`bench/drain.py --calls`).

Printed are the instructions of a GET that is answered with 13 bytes

- without keys;
- with `routers[0].retries`, and how much more that is;
- with `routers[0].client.hostConnectionPool`, and how much more that is.
"""
import json, os, re, shutil, socket, subprocess, sys, tempfile

sys.argv, words = [sys.argv[0]], sys.argv[1:]
from drain import REPLY, REQUEST, reply_on
from edge import Replica, free_ports, read_head, shut_down

ROOT = os.path.dirname(os.path.dirname(os.path.abspath(__file__)))
BUILT = os.path.join(ROOT, "crates", "linker", "out", "linker")
PROGRAM = os.path.abspath(words[0] if words else BUILT)
FEW, MANY = 1_000, 3_000


def answer(connection):
    """A replica that keeps its connections as it is asked to."""
    while True:
        head, _ = read_head(connection)
        if not head:
            return
        connection.sendall(REPLY)
        if b"connection: close" in head.lower():
            return


def counted(keys, requests):
    """The instructions of a run with so many requests."""
    replica, (router, namerd, admin) = Replica(answer), free_ports(3)
    with tempfile.TemporaryDirectory() as work:
        os.mkdir(os.path.join(work, "disco"))
        with open(os.path.join(work, "disco", "web"), "w") as file:
            file.write(f"127.0.0.1 {replica.port}\n")
        with open(os.path.join(work, "c.json"), "w") as file:
            json.dump(
                {
                    "admin": {"port": admin},
                    "namerd": {"port": namerd},
                    "workers": 1,
                    "namers": [{"kind": "io.l5d.fs", "rootDir": "disco"}],
                    "routers": [
                        {
                            "protocol": "http",
                            "dtab": "/svc => /#/io.l5d.fs",
                            "servers": [{"port": router}],
                            **keys,
                        }
                    ],
                },
                file,
            )
        program = subprocess.Popen(
            [
                "valgrind",
                "--tool=callgrind",
                "--callgrind-out-file=counted",
                PROGRAM,
                "serve",
                "c.json",
            ],
            cwd=work,
            stdout=subprocess.PIPE,
            stderr=subprocess.DEVNULL,
        )
        program.admin = admin
        program.stdout.readline()
        with socket.create_connection(("127.0.0.1", router), timeout=60) as client:
            for _ in range(requests):
                client.sendall(REQUEST)
                head, _ = reply_on(client)
                if not head.startswith(b"HTTP/1.1 200"):
                    sys.exit(f"a reply: {head!r}")
        shut_down(program)
        program.wait(60)
        with open(os.path.join(work, "counted")) as file:
            return int(re.search(r"^(?:summary|totals): (\d+)", file.read(), re.M).group(1))


def main():
    if not shutil.which("valgrind"):
        sys.exit("instructions: valgrind was not found")
    bare = None
    for name, keys in (
        ("without keys", {}),
        ("with retries", {"retries": {}}),
        ("with kept connections", {"client": {"hostConnectionPool": {}}}),
    ):
        each = (counted(keys, MANY) - counted(keys, FEW)) / (MANY - FEW)
        bare = bare or each
        more = "" if each == bare else f", {100 * (each / bare - 1):+.1f} %"
        print(f"{name}: {each:,.0f} instructions a request{more}", flush=True)


if __name__ == "__main__":
    main()
