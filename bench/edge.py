#!/usr/bin/env python3
"""Runs `linker serve` against odd peers, and with few descriptors.

usage: bench/edge.py [PROGRAM] [--slow]

- A replica that answers right behind the request's head and reads on slowly: it gets all of a body
  of 200,000 bytes, and all of one of 3,500,000.
- A POST of 5 MB to a name without a replica, by Python's client: it gets its 502.
- Clients that wait in the queue with their requests sent when a shutdown is asked for: each gets
  its reply.
- 40 descriptors for 16 workers: the program ends with `error net`, and says how many it wants. With
  so many, 24 requests at once are all answered.
- 200 clients that keep their connections, on 4 workers and with 100 descriptors: each is answered,
  and those that have waited longest are ended.
- More connections to the interfaces than these have workers, which are kept: each is answered, more
  than once, and the shutdown doesn't wait for them.
- Accepts that fail for want of a descriptor: a client that came meanwhile is served once there is
  one.

With `--slow`, which takes four minutes, also:

- A client that asks for nothing, one that does not read its reply, and a replica that neither reads
  nor answers. Each is given up after 60 seconds and a few more; so is a client that falls silent in
  the middle of a request.
- A replica that answers no dial, since its queue is full: it is given up after ten seconds.
- A replica that falls silent behind a request over a kept connection: it is sent no second one.
- A program that is stopped for 66 seconds (SIGSTOP) and goes on: clients that waited have their
  next requests answered, also one that came meanwhile.

The script ends with 0 where nothing was wrong.
"""
import contextlib, http.client, json, os, re, resource, signal, socket, subprocess, sys, tempfile
import threading, time, types

ROOT = os.path.dirname(os.path.dirname(os.path.abspath(__file__)))
SLOW = "--slow" in sys.argv[1:]
GIVEN = next((word for word in sys.argv[1:] if word != "--slow"), os.path.join(ROOT, "linker"))
PROGRAM = os.path.abspath(GIVEN)
HEAD_OF_202 = b"HTTP/1.1 202 Accepted\r\nContent-Length: 0\r\n\r\n"


def free_ports(count):
    sockets = [socket.socket() for _ in range(count)]
    for one in sockets:
        one.bind(("127.0.0.1", 0))
    ports = [one.getsockname()[1] for one in sockets]
    for one in sockets:
        one.close()
    return ports


def read_head(connection):
    """The head that comes, and what came behind it."""
    text = b""
    while b"\r\n\r\n" not in text:
        piece = connection.recv(65_536)
        if not piece:
            break
        text += piece
    head, _, rest = text.partition(b"\r\n\r\n")
    return head, rest


def read_all(connection):
    text = b""
    while piece := connection.recv(65_536):
        text += piece
    return text


class Replica:
    """Serves each connection by `serve` in a thread of its own."""

    def __init__(self, serve):
        self.listener = socket.create_server(("127.0.0.1", 0), backlog=512)
        self.port = self.listener.getsockname()[1]
        self.serve = serve
        threading.Thread(target=self.run, daemon=True).start()

    def run(self):
        while True:
            connection, _ = self.listener.accept()
            threading.Thread(target=self.one, args=(connection,), daemon=True).start()

    def one(self, connection):
        with contextlib.suppress(OSError), connection:
            self.serve(connection)


@contextlib.contextmanager
def proxy(replicas, workers, descriptors=None, server=None, before=(), keys=None):
    """A proxy whose services are these replicas, by their names. `server` has further keys of the
    router's server and `keys` of the router, and `before` stands before the program's words."""
    with tempfile.TemporaryDirectory() as folder:
        router, namerd, admin = free_ports(3)
        os.mkdir(os.path.join(folder, "disco"))
        for name, replica in replicas.items():
            with open(os.path.join(folder, "disco", name), "w") as file:
                file.write(f"127.0.0.1 {replica.port}\n")
        config = {
            "admin": {"port": admin},
            "namerd": {"port": namerd},
            "namers": [{"kind": "io.l5d.fs", "rootDir": "disco"}],
            "routers": [
                {
                    "protocol": "http",
                    "dtab": "/svc => /#/io.l5d.fs",
                    "servers": [{"port": router, **(server or {})}],
                    **(keys or {}),
                }
            ],
            "workers": workers,
        }
        with open(os.path.join(folder, "c.json"), "w") as file:
            json.dump(config, file)

        def limit():
            if descriptors:
                resource.setrlimit(resource.RLIMIT_NOFILE, (descriptors, descriptors))

        with open(os.path.join(folder, "log"), "w+b") as log:
            program = subprocess.Popen(
                [*before, PROGRAM, "serve", "c.json"],
                cwd=folder,
                preexec_fn=limit,
                stdout=subprocess.PIPE,
                stderr=log,
            )
            line = program.stdout.readline()
            program.router, program.namerd, program.admin = router, namerd, admin
            program.first_line = line
            program.folder = folder
            try:
                yield program
            finally:
                if program.poll() is None and line.startswith(b"serving"):
                    with contextlib.suppress(OSError):
                        shut_down(program)
                try:
                    program.wait(90)
                except subprocess.TimeoutExpired:
                    program.kill()
                    program.wait()
                log.seek(0)
                program.log = log.read().decode()


def shut_down(program):
    client = http.client.HTTPConnection("127.0.0.1", program.admin, timeout=30)
    client.request("POST", "/admin/shutdown")
    client.getresponse().read()
    client.close()


def connect(program):
    return socket.create_connection(("127.0.0.1", program.router), timeout=100)


def request(name, method="GET", length=None, close=True):
    head = f"{method} / HTTP/1.1\r\nHost: {name}\r\n"
    if length is not None:
        head += f"Content-Length: {length}\r\n"
    if close:
        head += "Connection: close\r\n"
    return (head + "\r\n").encode()


faults = []


def check(name, is_right, what=""):
    print(f"{'ok  ' if is_right else 'WRONG'} {name} {what}", flush=True)
    if not is_right:
        faults.append(name)


def early_reply(size):
    """A replica that answers 202 behind the head gets the whole body."""
    bodies, is_done = [], threading.Event()

    def serve(connection):
        _, rest = read_head(connection)
        connection.sendall(HEAD_OF_202)
        got = len(rest)
        try:
            while piece := connection.recv(16_384):
                got += len(piece)
                time.sleep(0.001)
        finally:
            bodies.append(got)
            is_done.set()

    with proxy({"web": Replica(serve)}, 2) as program, connect(program) as client:
        client.sendall(request("web", "POST", size) + b"x" * size)
        reply = read_all(client)
        is_done.wait(60)
    check(
        f"an early reply: {bodies} of {size} bytes arrived",
        bodies == [size] and reply.startswith(b"HTTP/1.1 202"),
    )


def unread_body():
    """A POST of 5 MB to a name without a replica has its reply, though the body is not read."""
    statuses = []
    with proxy({}, 2) as program:
        for _ in range(3):
            client = http.client.HTTPConnection("127.0.0.1", program.router, timeout=30)
            try:
                client.request("POST", "/", b"x" * 5_000_000, {"Host": "nobody"})
                statuses.append(client.getresponse().status)
            except OSError as error:
                statuses.append(type(error).__name__)
            client.close()
    check(f"a reply behind an unread body: {statuses}", statuses == [502, 502, 502])


def waiting_at_the_stop():
    """Clients that wait in the queue when a shutdown is asked for are answered."""
    go = threading.Event()

    def serve(connection):
        read_head(connection)
        go.wait(60)
        connection.sendall(HEAD_OF_202)

    with proxy({"web": Replica(serve)}, 2) as program:
        clients = [connect(program) for _ in range(12)]
        for client in clients:
            client.sendall(request("web"))
        time.sleep(0.5)
        shut_down(program)
        time.sleep(0.2)
        go.set()
        replies = []
        for client in clients:
            try:
                replies.append(read_all(client)[9:12])
            except OSError as error:
                replies.append(type(error).__name__)
            client.close()
        status = program.wait(30)
    check(
        f"clients that wait at the stop: {replies}, status {status}",
        replies == [b"202"] * 12 and status == 0,
    )


def stop_of_idle_workers():
    """A shutdown with nobody in the queue ends at once."""
    with proxy({}, 16) as program:
        begin = time.monotonic()
        shut_down(program)
        status = program.wait(30)
        took = time.monotonic() - begin
    check(f"a stop of idle workers took {took:.2f} s, status {status}", status == 0 and took < 3)


def few_descriptors():
    """Too few descriptors are refused at the start; with the number that is named, all goes."""
    with proxy({}, 16, 40) as program:
        pass
    wanted = re.search(r"(\d+) descriptors are wanted", program.log)
    check(
        f"40 descriptors: status {program.returncode}, {program.log.splitlines()[-1:]}",
        program.returncode == 6 and program.first_line == b"error net\n" and wanted,
    )
    if not wanted:
        return

    def serve(connection):
        read_head(connection)
        time.sleep(0.1)
        connection.sendall(HEAD_OF_202)

    replies = []

    def ask(program):
        with contextlib.suppress(OSError), connect(program) as client:
            client.sendall(request("web", "POST", 10_000) + b"x" * 10_000)
            replies.append(read_all(client)[9:12])

    number = int(wanted[1])
    with proxy({"web": Replica(serve)}, 16, number) as program:
        for _ in range(10):
            askers = [threading.Thread(target=ask, args=(program,)) for _ in range(24)]
            for asker in askers:
                asker.start()
            for asker in askers:
                asker.join()
    good = replies.count(b"202")
    check(
        f"{number} descriptors: {good} of 240 answered, status {program.returncode}",
        good == 240 and program.returncode == 0,
    )


def more_clients_than_descriptors():
    """Clients that keep their connections are all answered, and the oldest ones are ended."""

    def serve(connection):
        read_head(connection)
        connection.sendall(HEAD_OF_202)

    answered, clients = 0, []
    with proxy({"web": Replica(serve)}, 4, 100) as program:
        for _ in range(200):
            client = connect(program)
            client.sendall(request("web", close=False))
            answered += read_head(client)[0].startswith(b"HTTP/1.1 202")
            clients.append(client)
        time.sleep(0.5)
        are_open = [is_open(client) for client in clients]
        for client in clients:
            client.close()
    check(
        f"200 clients with 100 descriptors: {answered} answered, {are_open.count(True)} are open",
        answered == 200
        and not any(are_open[:100])
        and all(are_open[-16:])
        and program.returncode == 0,
    )


def is_open(client):
    """Whether the other end has not ended this connection, over which nothing is to come."""
    client.setblocking(False)
    try:
        client.recv(1)
    except BlockingIOError:
        return True
    except OSError:
        pass
    return False


def kept_connections_to_interfaces():
    """More kept connections than an interface has workers hold nobody up."""
    statuses, kept = [], []
    with proxy({}, 2) as program:
        targets = [(program.admin, "/admin/ping"), (program.namerd, "/api/1/dtabs")] * 4
        for port, _ in targets:
            kept.append(http.client.HTTPConnection("127.0.0.1", port, timeout=10))
        for _ in range(2):
            for client, (_, target) in zip(kept, targets):
                client.request("GET", target)
                reply = client.getresponse()
                reply.read()
                statuses.append(reply.status)
        begin = time.monotonic()
        shut_down(program)
        status = program.wait(30)
        took = time.monotonic() - begin
        for client in kept:
            client.close()
    check(
        f"8 kept connections to the interfaces: {statuses.count(200)} of 16 answered, "
        f"a stop took {took:.2f} s, status {status}",
        statuses == [200] * 16 and status == 0 and took < 3,
    )


def waits():
    """Each wait on a socket ends after 60 seconds."""
    ended = {}

    def note(name, begin):
        ended[name] = round(time.monotonic() - begin)

    def never(connection):
        read_head(connection)
        time.sleep(80)

    def large(connection):
        read_head(connection)
        begin = time.monotonic()
        connection.sendall(b"HTTP/1.1 200 OK\r\nContent-Length: 100000000\r\n\r\n")
        with contextlib.suppress(OSError):
            for _ in range(1_000):
                connection.sendall(b"x" * 100_000)
        note("a client that does not read", begin)

    def silent(program):
        begin = time.monotonic()
        with connect(program) as client:
            client.recv(1)
        note("a client that asks for nothing", begin)

    def unread(program):
        with connect(program) as client:
            client.setsockopt(socket.SOL_SOCKET, socket.SO_RCVBUF, 4_096)
            client.sendall(request("large"))
            time.sleep(70)

    def cut(program):
        begin = time.monotonic()
        with connect(program) as client:
            client.sendall(b"GET / HTTP/1.1\r\nHo")
            client.recv(1)
        note("a client that falls silent in a head", begin)

    def unheard(program):
        begin = time.monotonic()
        with contextlib.suppress(OSError), connect(program) as client:
            client.sendall(request("never", "POST", 100_000_000))
            for _ in range(1_000):
                client.sendall(b"x" * 100_000)
        note("a replica that does not read", begin)

    replicas = {"never": Replica(never), "large": Replica(large)}
    with proxy(replicas, 5) as program:
        askers = [
            threading.Thread(target=ask, args=(program,), daemon=True)
            for ask in (silent, unread, unheard, cut)
        ]
        for asker in askers:
            asker.start()
        for asker in askers:
            asker.join(90)
    check(
        f"waits end after a minute: {ended}",
        len(ended) == 4 and all(58 <= seconds <= 66 for seconds in ended.values()),
    )


def accepts_that_fail():
    """A client comes while no accept has a descriptor, and is served once there is one."""
    with proxy({}, 4) as program:
        few, many = resource.prlimit(program.pid, resource.RLIMIT_NOFILE)
        resource.prlimit(program.pid, resource.RLIMIT_NOFILE, (3, many))
        with connect(program) as client:
            client.sendall(request("web"))
            time.sleep(3)
            resource.prlimit(program.pid, resource.RLIMIT_NOFILE, (few, many))
            reply = read_all(client)
    check("accepts that fail for want of a descriptor", reply[9:12] == b"502", f"{reply[:40]}")


def unanswered_dial():
    """A dial that the replica's kernel does not answer is given up after ten seconds."""
    listener = socket.create_server(("127.0.0.1", 0), backlog=0)
    replica = types.SimpleNamespace(port=listener.getsockname()[1])
    # One of these takes the only place of the queue, and no other is let in.
    waiting = [socket.socket() for _ in range(4)]
    for one in waiting:
        one.setblocking(False)
        one.connect_ex(listener.getsockname())
    time.sleep(0.5)
    with listener, proxy({"web": replica}, 2) as program, connect(program) as client:
        begin = time.monotonic()
        client.sendall(request("web"))
        reply = read_all(client)
        took = time.monotonic() - begin
    for one in waiting:
        one.close()
    check(
        f"a dial that is not answered: {reply[9:12]} after {took:.2f} s",
        reply.startswith(b"HTTP/1.1 502") and reply.endswith(b"\r\n\r\ndial\n") and 9 <= took <= 12,
    )


def silent_behind_a_kept_connection():
    """A request that a replica does not answer over a kept connection is sent to it once."""
    heads = []

    def serve(connection):
        for _ in range(2):
            head, _ = read_head(connection)
            heads.append((head.split(b" ")[1], connection.getpeername()))
            if b"/silent" in head:
                time.sleep(80)
            connection.sendall(HEAD_OF_202)

    keys = {"client": {"hostConnectionPool": {}}}
    with proxy({"web": Replica(serve)}, 1, keys=keys) as program, connect(program) as client:
        client.sendall(request("web", close=False))
        first, _ = read_head(client)
        begin = time.monotonic()
        client.sendall(request("web").replace(b"/", b"/silent", 1))
        reply = read_all(client)
        took = time.monotonic() - begin
    targets = [target for target, _ in heads]
    check(
        f"a replica that is silent behind a kept connection: {targets} over "
        f"{len({peer for _, peer in heads})} connection, {reply[9:12]} after {took:.0f} s",
        first.startswith(b"HTTP/1.1 202")
        and targets == [b"/", b"/silent"]
        and heads[0][1] == heads[1][1]
        and reply.startswith(b"HTTP/1.1 50")
        and 58 <= took <= 66,
    )


def stopped_program():
    """Clients that wait while the program is stopped are answered once it goes on."""

    def serve(connection):
        read_head(connection)
        connection.sendall(HEAD_OF_202)

    def status(ask):
        try:
            return ask()[9:12]
        except OSError as error:
            return type(error).__name__

    def ask(client):
        client.sendall(request("web", close=False))

    statuses = []
    with proxy({"web": Replica(serve)}, 2) as program:
        clients = [connect(program) for _ in range(4)]
        for client in clients:
            ask(client)
            read_head(client)
        time.sleep(1)
        os.kill(program.pid, signal.SIGSTOP)
        time.sleep(66)
        ask(clients[0])
        ask(clients[1])
        os.kill(program.pid, signal.SIGCONT)
        statuses += [status(lambda: read_head(client)[0]) for client in clients[:2]]
        time.sleep(2)
        for client in clients[2:]:
            with contextlib.suppress(OSError):
                ask(client)
            statuses.append(status(lambda: read_head(client)[0]))
        for client in clients:
            client.close()
    check(
        f"clients of a program that was stopped for 66 s: {statuses}",
        statuses == [b"202"] * 4 and program.returncode == 0,
    )


def main():
    early_reply(200_000)
    early_reply(3_500_000)
    unread_body()
    waiting_at_the_stop()
    stop_of_idle_workers()
    few_descriptors()
    more_clients_than_descriptors()
    kept_connections_to_interfaces()
    accepts_that_fail()
    if SLOW:
        waits()
        unanswered_dial()
        silent_behind_a_kept_connection()
        stopped_program()
    sys.exit(f"wrong: {faults}" if faults else 0)


if __name__ == "__main__":
    main()
