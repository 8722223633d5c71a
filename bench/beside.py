#!/usr/bin/env python3
"""How long an edit of a table, and a request for a name that nobody asked for before, take beside
clients whose requests bring tables of their own that take long to delegate by.

It starts `linker serve`, makes edits and asks for new names for some seconds with nothing else
going on, and again while the clients send one such request after the other. It prints how long one
of these takes by itself, and of edits and new names the 50th and 99th percentile and the longest.
No edit and no request for a new name should wait for another's delegation: with a processor for
each client and two more, the 99th percentile beside them is meant to stay under 10 ms.

usage: bench/beside.py [--program crates/linker/out/linker] [--seconds 10] [--clients 1]
                       [--entries 1000]
"""
import argparse, http.client, json, os, socket, subprocess, tempfile, threading, time

HERE = os.path.dirname(os.path.abspath(__file__))

# As many branches as a union may have whose leaves are all looked up.
BRANCHES = 9_999


def slow_table(entries):
    """A table by which each of 9,999 lookups goes over so many entries."""
    return ";".join(["/svc/slow=>" + "&".join(["/a"] * BRANCHES)] + ["/a=>~"] * entries)


def free_ports(count):
    sockets = [socket.create_server(("127.0.0.1", 0)) for _ in range(count)]
    ports = [one.getsockname()[1] for one in sockets]
    for one in sockets:
        one.close()
    return ports


class Client:
    """One connection that stays open, and is opened anew where the server ends it."""

    def __init__(self, port):
        self.connection = http.client.HTTPConnection("127.0.0.1", port, timeout=120)

    def ask(self, method, target, body=None, **fields):
        """How long a request takes, and the status of its reply."""
        start = time.perf_counter()
        self.connection.request(method, target, body=body, headers=fields)
        reply = self.connection.getresponse()
        reply.read()
        return time.perf_counter() - start, reply.status


def edit(client, number):
    table = f"/host => /$/inet/127.0.0.1/{1 + number % 60_000}"
    seconds, status = client.ask("PUT", "/api/1/dtabs/default", body=table)
    assert status == 204, status
    return seconds


def new_name(client, number):
    seconds, status = client.ask(
        "GET", "/", Host=f"name-{os.getpid()}-{time.monotonic_ns()}-{number}"
    )
    assert status == 502, status
    return seconds


def slow(client, table):
    seconds, status = client.ask("GET", "/", Host="slow", **{"l5d-dtab": table})
    assert status in (400, 502), status
    return seconds


def timed(act, client, seconds):
    """The times of one call after the other for so long."""
    end, times = time.perf_counter() + seconds, []
    while time.perf_counter() < end:
        times.append(act(client, len(times)))
        time.sleep(0.001)
    return sorted(times)


def row(name, times):
    at = lambda share: 1_000 * times[min(len(times) - 1, int(share * len(times)))]
    print(
        f"| {name} | {len(times):,} | {at(0.5):.2f} | {at(0.99):.2f} | {1_000 * times[-1]:.2f} |",
        flush=True,
    )


def measured(name, ports, seconds):
    """Edits and new names side by side, each over a connection of its own."""
    found = {}
    acts = {"an edit": (edit, ports[1]), "a new name": (new_name, ports[0])}
    threads = [
        threading.Thread(
            target=lambda what=what, act=act, port=port: found.update(
                {what: timed(act, Client(port), seconds)}
            )
        )
        for what, (act, port) in acts.items()
    ]
    for one in threads:
        one.start()
    for one in threads:
        one.join()
    for what in acts:
        row(f"{what}, {name}", found[what])


def main():
    parser = argparse.ArgumentParser(
        description=__doc__, formatter_class=argparse.RawDescriptionHelpFormatter
    )
    parser.add_argument(
        "--program", default=os.path.join(HERE, "..", "crates", "linker", "out", "linker")
    )
    parser.add_argument("--seconds", type=float, default=10)
    parser.add_argument("--clients", type=int, default=1)
    parser.add_argument(
        "--entries",
        type=int,
        default=1_000,
        help="entries that each lookup of a slow request matches, at most 1,023",
    )
    options = parser.parse_args()
    table = slow_table(options.entries)
    assert len(table) < 65_000, "the table does not fit into a head"
    with tempfile.TemporaryDirectory() as folder:
        os.mkdir(os.path.join(folder, "disco"))
        ports = free_ports(3)
        with open(os.path.join(folder, "c.json"), "w") as file:
            json.dump(
                {
                    "admin": {"port": ports[2]},
                    "namerd": {"port": ports[1]},
                    "namers": [{"kind": "io.l5d.fs", "rootDir": "disco"}],
                    "routers": [
                        {
                            "protocol": "http",
                            "dtab": "/host => /nowhere",
                            "servers": [{"port": ports[0]}],
                        }
                    ],
                    "workers": 4 + options.clients,
                },
                file,
            )
        proxy = subprocess.Popen(
            [os.path.abspath(options.program), "serve", "c.json"],
            cwd=folder,
            stdout=subprocess.PIPE,
            stderr=subprocess.DEVNULL,
        )
        try:
            assert proxy.stdout.readline().startswith(b"serving"), "not serving"
            _, status = Client(ports[1]).ask(
                "POST", "/api/1/dtabs/default", body="/host => /nowhere"
            )
            assert status in (204, 409), status
            alone = slow(Client(ports[0]), table)
            print(
                f"a request with a table of {len(table):,} bytes takes {alone:.2f} s by itself; "
                f"{options.clients} clients send them\n"
            )
            print("| what | times | p50 ms | p99 ms | most ms |")
            print("|---|---|---|---|---|")
            measured("nothing beside", ports, options.seconds)
            stop = threading.Event()

            def send_slow():
                client = Client(ports[0])
                while not stop.is_set():
                    slow(client, table)

            beside = [threading.Thread(target=send_slow) for _ in range(options.clients)]
            for one in beside:
                one.start()
            time.sleep(0.2)
            measured("beside slow tables", ports, options.seconds)
            stop.set()
            for one in beside:
                one.join()
            Client(ports[2]).ask("POST", "/admin/shutdown", body="")
            assert proxy.wait(timeout=120) == 0
        finally:
            proxy.kill()


if __name__ == "__main__":
    main()
