#!/usr/bin/env python3
"""Shuts `linker serve` down under load, and looks at what its clients get.

usage: bench/drain.py [PROGRAM] [--clients 50] [--calls] [--signal]

50 clients keep their connections: half of them ask again as soon as they have their reply, the
others have asked once and wait. Then the shutdown is asked for.

- Every request that was begun gets its whole reply. Of a busy client the last reply says
  `Connection: close`.
- A client that waits is ended, and told nothing.
- From the shutdown's `bye` to the program's end it takes at most two seconds, and the status is 0.

With `--signal` the program is started with SIGTERM and SIGINT blocked, and a SIGTERM asks for the
shutdown, which is seen within a quarter of a second.

With `--calls` it counts the system calls of the workers by strace, over 2,000 requests on one
connection, and prints those of a request.

The script ends with 0 where nothing was wrong.
"""
import argparse, os, re, signal, socket, subprocess, sys, threading, time

sys.argv, words = [sys.argv[0]], sys.argv[1:]
from edge import Replica, proxy, read_head, request

ROOT = os.path.dirname(os.path.dirname(os.path.abspath(__file__)))
BODY = b"hello, world\n"
REPLY = b"HTTP/1.1 200 OK\r\nContent-Length: 13\r\n\r\n" + BODY
REQUEST = request("web", close=False)


def answer(connection):
    """A replica: it takes a moment for each request."""
    read_head(connection)
    time.sleep(0.005)
    connection.sendall(REPLY)


def reply_on(connection):
    """A reply's head and its body; nothing where the connection has ended."""
    head, rest = read_head(connection)
    while head and len(rest) < len(BODY):
        piece = connection.recv(65_536)
        if not piece:
            break
        rest += piece
    return head, rest


class Client(threading.Thread):
    """Asks until its connection is ended, or once."""

    def __init__(self, port, is_busy):
        super().__init__(daemon=True)
        self.connection = socket.create_connection(("127.0.0.1", port), timeout=20)
        self.is_busy = is_busy
        self.replies = 0
        self.wrong = None
        self.is_last = False

    def run(self):
        with self.connection:
            try:
                self.ask()
            except OSError as error:
                self.wrong = f"{type(error).__name__} behind {self.replies} replies"

    def ask(self):
        while True:
            self.connection.sendall(REQUEST)
            head, body = reply_on(self.connection)
            if not head.startswith(b"HTTP/1.1 200") or body != BODY:
                self.wrong = f"reply {self.replies}: {head!r} {body!r}"
                return
            self.replies += 1
            self.is_last = b"connection: close" in head.lower()
            if self.is_last or not self.is_busy:
                break
        if self.connection.recv(1) != b"":
            self.wrong = "bytes behind the last reply"


def shut_down(program):
    """Asks for the shutdown over the interface, and says what went wrong."""
    with socket.create_connection(("127.0.0.1", program.admin), timeout=20) as asked:
        asked.sendall(b"POST /admin/shutdown HTTP/1.1\r\nHost: a\r\nContent-Length: 0\r\n\r\n")
        head, body = read_head(asked)
    return [] if body == b"bye\n" else [f"the shutdown's reply: {head!r} {body!r}"]


def drained(program, clients, by_signal):
    """What went wrong, and how long it took from `bye`, or the signal, to the program's end."""
    for client in clients:
        client.start()
    time.sleep(1)
    wrong = []
    if by_signal:
        program.send_signal(signal.SIGTERM)
    else:
        wrong += shut_down(program)
    asked = time.monotonic()
    status = program.wait(70)
    took = time.monotonic() - asked
    if status != 0:
        wrong.append(f"status {status}")
    if took > (2.25 if by_signal else 2):
        wrong.append(f"it took {took:.2f} s")
    for number, client in enumerate(clients):
        client.join(5)
        if client.wrong:
            wrong.append(f"client {number}: {client.wrong}")
        elif client.is_busy and not client.is_last:
            wrong.append(f"client {number}: its last reply does not close")
    return wrong, took


def calls(program, requests=2_000):
    """The system calls of a request on a connection that is busy, by their names."""
    with socket.create_connection(("127.0.0.1", program.router), timeout=20) as connection:
        connection.sendall(REQUEST)
        reply_on(connection)
        trace = subprocess.Popen(
            ["strace", "-f", "-c", "-p", str(program.pid)],
            stdout=subprocess.DEVNULL,
            stderr=subprocess.PIPE,
            text=True,
        )
        time.sleep(1)
        for _ in range(requests):
            connection.sendall(REQUEST)
            reply_on(connection)
        trace.send_signal(2)
        table = trace.communicate()[1]
    counted = {}
    for line in table.splitlines():
        words = line.split()
        if len(words) >= 5 and re.fullmatch(r"[0-9.]+", words[0]) and words[-1] != "total":
            counted[words[-1]] = int(words[3])
    return {name: round(count / requests, 2) for name, count in counted.items()}


def main():
    parser = argparse.ArgumentParser()
    parser.add_argument("program", nargs="?", default=os.path.join(ROOT, "linker"))
    parser.add_argument("--clients", type=int, default=50)
    parser.add_argument("--calls", action="store_true")
    parser.add_argument("--signal", action="store_true")
    options = parser.parse_args(words)
    import edge

    edge.PROGRAM = os.path.abspath(options.program)
    replica = Replica(answer)
    if options.calls:
        with proxy({"web": replica}, 4) as program:
            print("system calls of a request:", calls(program))
    before = ("env", "--block-signal=TERM,INT") if options.signal else ()
    with proxy({"web": replica}, options.clients + 6, before=before) as program:
        clients = [Client(program.router, number % 2 == 0) for number in range(options.clients)]
        wrong, took = drained(program, clients, options.signal)
    replies = sum(client.replies for client in clients)
    asked = "the signal" if options.signal else "`bye`"
    print(f"{options.clients} clients, {replies} replies, {took:.2f} s from {asked} to the end")
    for line in wrong:
        print("wrong:", line)
    sys.exit(1 if wrong else 0)


if __name__ == "__main__":
    main()
