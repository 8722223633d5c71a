#!/usr/bin/env python3
"""Runs `linker serve` as an operator does: clients that are not trusted, signals, and readiness.

usage: bench/operating.py [PROGRAM]

- A request with `l5d-dtab` and `l5d-ctx-*`: where `clearContext` is true none of these fields is
  read, and the replica gets what it gets of the request without them; where it is not, the tables
  of both fields are followed, and go on.
- A router that other machines reach, and whose configuration has no `clearContext`: standard error
  says so, and says nothing where the key is there, or the address is loopback.
- `/admin/ready`: 200 while the router serves, and 503 for a request that is answered once the
  shutdown was asked for.
- SIGTERM and SIGINT: where they are blocked, the request that is served is answered, and the
  program ends with status 0, also where the signal comes before it listens. Where they are not,
  they end it.

The script ends with 0 where nothing was wrong. (`bench/drain.py --signal` has a load.)
"""
import os, shlex, signal, socket, subprocess, sys, tempfile, threading, time

import edge
from edge import Replica, check, connect, faults, proxy, read_all, read_head

BLOCKED = ("env", "--block-signal=TERM,INT")
REPLY = b"HTTP/1.1 200 OK\r\nContent-Length: 2\r\n\r\nhi"
ASKED = b"GET / HTTP/1.1\r\nHost: web\r\nAccept: */*\r\nConnection: close\r\n"
CONTEXT = b"L5D-Dtab: /svc/web => /svc/other\r\nl5d-ctx-trace: 1\r\n"
# its table leads to the name that the one above leads on
CONTEXT_TABLE = b"L5d-Ctx-Dtab: /svc/more => /svc/web\r\n"
WARNING = "clearContext is not there"


def keeping(heads, word):
    """A replica that keeps each head that it reads, behind its own word."""

    def serve(connection):
        heads.append((word, read_head(connection)[0].lower()))
        connection.sendall(REPLY)

    return Replica(serve)


def asked(program, text):
    with connect(program) as client:
        client.sendall(text + b"\r\n")
        return read_all(client)


def is_followed(heads, replies):
    """The tables of the second and the third request lead elsewhere, and go on."""
    texts = [head + b"\r\n" for _, head in heads]
    return (
        [word for word, _ in heads] == ["web", "other", "other"]
        and all(reply.endswith(b"hi") for reply in replies)
        and b"l5d-ctx-" not in texts[0]
        and b"\nl5d-ctx-dtab: /svc/web=>/svc/other\r" in texts[1]
        and b"\nl5d-ctx-dtab: /svc/more=>/svc/web;/svc/web=>/svc/other\r" in texts[2]
        and all(b"\nl5d-ctx-trace: 1\r" in text for text in texts[1:])
    )


def is_cleared(heads, replies):
    """The second request goes on as the first does, which has no table, and the third's name has no
    replica."""
    return (
        [word for word, _ in heads] == ["web", "web"]
        and heads[0] == heads[1]
        and b"l5d-ctx-" not in heads[0][1]
        and replies[1].endswith(b"hi")
        and replies[2].startswith(b"HTTP/1.1 502")
        and b"l5d-err: negative" in replies[2]
    )


def context(server):
    """Requests without a table, with a table of their own, and with a second one that another
    router passed on."""
    heads = []
    replicas = {"web": keeping(heads, "web"), "other": keeping(heads, "other")}
    asks = (ASKED, ASKED + CONTEXT, ASKED.replace(b"web", b"more") + CONTEXT_TABLE + CONTEXT)
    with proxy(replicas, 2, server=server) as program:
        replies = [asked(program, text) for text in asks]
    is_right = is_cleared if server.get("clearContext") else is_followed
    check(
        f"the context where the server says {server}",
        is_right(heads, replies) and all(b"l5d-dtab" not in head for _, head in heads),
        "" if is_right(heads, replies) else f"{heads} {replies}",
    )


def warned(server, is_warned):
    with proxy({}, 2, server=server) as program:
        pass
    check(
        f"a warning where the server says {server}",
        (WARNING in program.log) == is_warned,
        program.log if (WARNING in program.log) != is_warned else "",
    )


def ready():
    """The interface is asked twice on one connection; between the two the shutdown is asked for."""
    asks = b"GET /admin/ready HTTP/1.1\r\nHost: a\r\n\r\n"
    with proxy({}, 2) as program:
        with socket.create_connection(("127.0.0.1", program.admin), timeout=20) as kept:
            kept.sendall(asks)
            before = kept.recv(65_536)
            kept.sendall(asks[:9])
            time.sleep(0.2)
            edge.shut_down(program)
            # The listeners are closed behind the shutdown's reply.
            time.sleep(0.3)
            kept.sendall(asks[9:])
            behind = read_all(kept)
    check(
        "ready while it serves",
        before.startswith(b"HTTP/1.1 200") and before.endswith(b"ready\n"),
        f"{before!r}",
    )
    check(
        "not ready behind a shutdown",
        behind.startswith(b"HTTP/1.1 503") and behind.endswith(b"not-ready\n"),
        f"{behind!r}",
    )


def signalled(number):
    """A signal that is blocked, while a request is served that takes a second."""
    is_asked = threading.Event()

    def serve(connection):
        read_head(connection)
        is_asked.set()
        time.sleep(1)
        connection.sendall(REPLY)

    with proxy({"web": Replica(serve)}, 2, before=BLOCKED) as program, connect(program) as client:
        client.sendall(b"GET / HTTP/1.1\r\nHost: web\r\n\r\n")
        is_asked.wait(10)
        program.send_signal(number)
        reply = read_all(client)
        status = program.wait(20)
    check(
        f"signal {number} where it is blocked",
        reply.endswith(b"hi") and status == 0,
        f"{status} {reply!r}",
    )


def signalled_early():
    """A signal that waits before the program begins."""
    with tempfile.TemporaryDirectory() as folder:
        admin, namerd, router = edge.free_ports(3)
        with open(os.path.join(folder, "c.json"), "w") as file:
            file.write(
                '{"admin":{"port":%d},"namerd":{"port":%d},"routers":[{"protocol":"http",'
                '"servers":[{"port":%d}]}]}' % (admin, namerd, router)
            )
        words = f"kill -TERM $$; exec {shlex.quote(edge.PROGRAM)} serve c.json"
        ended = subprocess.run(
            [*BLOCKED, "sh", "-c", words], cwd=folder, timeout=20, capture_output=True
        )
    check(
        "a signal before it listens",
        ended.returncode == 0 and b"closed 0" in ended.stdout,
        f"{ended}",
    )


def ended(number):
    """A signal that is not blocked."""
    with proxy({}, 2) as program:
        program.send_signal(number)
        status = program.wait(20)
    check(f"signal {number} where it is not blocked", status == -number, f"status {status}")


def main():
    context({"clearContext": True})
    context({"clearContext": False})
    context({})
    warned({"ip": "0.0.0.0"}, True)
    warned({"ip": "0.0.0.0", "clearContext": False}, False)
    warned({"ip": "0.0.0.0", "clearContext": True}, False)
    warned({}, False)
    ready()
    signalled(signal.SIGTERM)
    signalled(signal.SIGINT)
    signalled_early()
    ended(signal.SIGTERM)
    ended(signal.SIGINT)
    sys.exit(1 if faults else 0)


if __name__ == "__main__":
    main()
