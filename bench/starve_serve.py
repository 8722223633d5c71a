#!/usr/bin/env python3
"""Runs `linker serve` with memory refused at one call for it while a request is served: at the
first call, then, with a proxy that is started anew, at the second, and so on.

Each time the client must be given a front of the reply that it is given with ample memory, and the
replica a front of what it is sent. The proxy must go on: it takes a further connection, and a
shutdown ends it with status 0, or with 7 and `error memory`. It needs a C compiler, `cc`, for the
malloc that refuses.

usage: bench/starve_serve.py [--program crates/linker/out/linker]
"""
import argparse, json, mmap, os, socket, struct, subprocess, sys, tempfile, threading, time

from starve import refusing_library

HERE = os.path.dirname(os.path.abspath(__file__))

# The file named by REFUSE has two numbers: which call is refused, or 0 for none, and how many there
# were since this was set.
BY_FILE = r"""
#include <fcntl.h>
#include <stdlib.h>
#include <sys/mman.h>

static volatile long *state;

__attribute__((constructor)) static void begin(void) {
    int file = open(getenv("REFUSE"), O_RDWR);
    void *at = mmap(0, 4096, PROT_READ | PROT_WRITE, MAP_SHARED, file, 0);
    if (at != MAP_FAILED) state = at;
}

static int is_refused(void) {
    if (!state || state[0] == 0) return 0;
    return __sync_add_and_fetch(&state[1], 1) == state[0];
}
"""

REQUEST = (
    b"POST /path?query HTTP/1.1\r\nHost: web\r\nUser-Agent: curl/8.5.0\r\nContent-Length: 5\r\n"
    b"Connection: close\r\n\r\nhello"
)
REPLY = b"HTTP/1.1 200 OK\r\nContent-Type: text/plain\r\nContent-Length: 13\r\n\r\nhello, world\n"
SHUTDOWN = b"POST /admin/shutdown HTTP/1.1\r\nHost: a\r\nContent-Length: 0\r\n\r\n"


def exchange(port, request):
    """What comes back, up to the end of the connection."""
    with socket.create_connection(("127.0.0.1", port), timeout=20) as client:
        client.sendall(request)
        came = b""
        try:
            while piece := client.recv(65536):
                came += piece
        except ConnectionResetError:
            pass
        return came


class Replica(threading.Thread):
    """Answers each connection once its body has come, and keeps what it was sent last."""

    def __init__(self):
        super().__init__(daemon=True)
        self.listener = socket.create_server(("127.0.0.1", 0))
        self.port = self.listener.getsockname()[1]
        self.sent = b""

    def run(self):
        while True:
            peer, _ = self.listener.accept()
            with peer:
                self.sent = b""
                try:
                    while not self.sent.endswith(b"\r\n\r\nhello") and (piece := peer.recv(65536)):
                        self.sent += piece
                    if self.sent.endswith(b"hello"):
                        peer.sendall(REPLY)
                        peer.recv(1)
                except OSError:
                    pass


def config(ports):
    """The configuration of a proxy at these ports of its router, its namerd and its admin."""
    return {
        "admin": {"port": ports[2]},
        "namerd": {"port": ports[1]},
        "namers": [{"kind": "io.l5d.fs", "rootDir": "disco"}],
        "workers": 2,
        "routers": [
            {
                "protocol": "http",
                "dtab": "/svc => /#/io.l5d.fs",
                "servers": [{"port": ports[0]}],
            }
        ],
    }


def serve_once(program, library, folder, ports, replica, at):
    """Starts the proxy, refuses this call while it serves a request, and shuts it down. The calls
    that there were, the reply, what went on, the next reply, the status and the last line."""
    with open(os.path.join(folder, "refuse"), "r+b") as file, mmap.mmap(
        file.fileno(), 4096
    ) as state:
        state[:16] = struct.pack("qq", 0, 0)
        environment = {"LD_PRELOAD": library, "REFUSE": os.path.join(folder, "refuse")}
        proxy = subprocess.Popen(
            [program, "serve", "c.json"],
            cwd=folder,
            env=environment,
            stdout=subprocess.PIPE,
            stderr=subprocess.DEVNULL,
        )
        proxy.stdout.readline()
        # Behind this line the jobs are still to be begun.
        exchange(ports[0], REQUEST.replace(b"web", b"other"))
        time.sleep(0.1)
        state[:16] = struct.pack("qq", at, 0)
        reply = exchange(ports[0], REQUEST)
        calls = struct.unpack("qq", state[:16])[1]
        state[:16] = struct.pack("qq", 0, 0)
        time.sleep(0.02)
        sent = replica.sent
        further = exchange(ports[0], REQUEST)
        bye = exchange(ports[2], SHUTDOWN)
        rest, _ = proxy.communicate(timeout=60)
        assert bye.endswith(b"bye\n"), bye
        return calls, reply, sent, further, proxy.returncode, rest


def main():
    parser = argparse.ArgumentParser(
        description=__doc__, formatter_class=argparse.RawDescriptionHelpFormatter
    )
    parser.add_argument(
        "--program", default=os.path.join(HERE, "..", "crates", "linker", "out", "linker")
    )
    program = os.path.abspath(parser.parse_args().program)
    replica = Replica()
    replica.start()
    sockets = [socket.create_server(("127.0.0.1", 0)) for _ in range(3)]
    ports = [one.getsockname()[1] for one in sockets]
    for one in sockets:
        one.close()
    with tempfile.TemporaryDirectory() as folder:
        library = refusing_library(folder, BY_FILE)
        os.mkdir(os.path.join(folder, "disco"))
        with open(os.path.join(folder, "disco", "web"), "w") as file:
            file.write(f"127.0.0.1 {replica.port}\n")
        with open(os.path.join(folder, "c.json"), "w") as file:
            json.dump(config(ports), file)
        with open(os.path.join(folder, "refuse"), "wb") as file:
            file.write(bytes(4096))
        ample = serve_once(program, library, folder, ports, replica, 1 << 40)
        if (
            not ample[1].startswith(b"HTTP/1.1 200 OK\r\n")
            or ample[3] != ample[1]
            or ample[4:] != (0, b"closed 1\n")
        ):
            sys.exit(f"with ample memory: {ample}")
        cut = stopped = 0
        for at in range(1, ample[0] + 1):
            _, reply, sent, further, status, rest = serve_once(
                program, library, folder, ports, replica, at
            )
            good = (
                ample[1].startswith(reply)
                and ample[2].startswith(sent)
                and ample[1].startswith(further)
            )
            if not good or (status, rest) not in (
                (0, b"closed 1\n"),
                (7, b"closed 1\nerror memory\n"),
            ):
                sys.exit(
                    f"call {at} refused: {reply!r}, {sent!r}, {further!r}, "
                    f"status {status}, {rest!r}"
                )
            cut += reply != ample[1]
            stopped += further != ample[1]
        print(
            f"refused at each of {ample[0]} calls: {cut} replies were cut, {stopped} times also "
            "the next one, and nothing else was written or sent; each proxy went on and was shut "
            "down"
        )


if __name__ == "__main__":
    main()
