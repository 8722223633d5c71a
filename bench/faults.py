#!/usr/bin/env python3
"""Runs `linker serve` under load and counts wrong answers: `bench/faults.py [PROGRAM] [--slow]`.

- 1,000 connections at once on 16 workers, a request on each.
- Eight kept connections for five seconds, while a table is put 200 times a second. Each table sends
  its requests on with its own number, so each reply shows the table that it was answered by: on one
  connection the numbers never fall, and a table that was put is the next one's by its version.
- Upstreams that close without a reply, that send no HTTP, and that end in the middle of a body.
- A client that sends a byte at a time, and one that leaves in the middle of a reply.
- With `--slow`, for a minute and more: an upstream that never answers, a client that never reads,
  and one that never asks, each of which is given up after 60 seconds, and a program that is stopped
  and goes on meanwhile. Then as many requests are under way at once as there are workers.

Then the proxy is shut down, and has to end with status 0. The script ends with 0 where nothing was
wrong.
"""
import asyncio, contextlib, json, os, signal, socket, sys, tempfile

ROOT = os.path.dirname(os.path.dirname(os.path.abspath(__file__)))
SLOW = "--slow" in sys.argv[1:]
PROGRAM = next((word for word in sys.argv[1:] if word != "--slow"), os.path.join(ROOT, "linker"))
AT_ONCE, WORKERS, KEPT, SECONDS, SWAPS, LIMIT = 1000, 16, 8, 5, 200, 60


def free_ports(count):
    sockets = [socket.socket() for _ in range(count)]
    for one in sockets:
        one.bind(("127.0.0.1", 0))
    ports = [one.getsockname()[1] for one in sockets]
    for one in sockets:
        one.close()
    return ports


async def read_reply(reader):
    """The status, the fields and the body of a reply with a Content-Length."""
    head = (await reader.readuntil(b"\r\n\r\n")).decode("latin-1").split("\r\n")
    parted = (line.partition(":") for line in head[1:] if line)
    fields = {name.lower(): value.strip() for name, _, value in parted}
    body = await reader.readexactly(int(fields.get("content-length", "0")))
    return int(head[0].split(" ")[1]), fields, body


async def ask(port, method, target, fields=(), body=b"", reader=None, writer=None):
    """One request, over this connection or one of its own."""
    own = reader is None
    if own:
        reader, writer = await asyncio.open_connection("127.0.0.1", port)
    head = [f"{method} {target} HTTP/1.1", *(f"{name}: {value}" for name, value in fields)]
    if body or method in ("PUT", "POST"):
        head.append(f"Content-Length: {len(body)}")
    if own:
        head.append("Connection: close")
    writer.write("\r\n".join(head).encode() + b"\r\n\r\n" + body)
    await writer.drain()
    reply = await read_reply(reader)
    if own:
        writer.close()
    return reply


async def echo_number(reader, writer):
    """An upstream: its reply's body is the residual path of the request, by the table."""
    with contextlib.suppress(asyncio.IncompleteReadError, ConnectionError):
        head = (await reader.readuntil(b"\r\n\r\n")).decode("latin-1").lower()
        residuals = [
            line.partition(":")[2].strip()
            for line in head.split("\r\n")
            if line.startswith("l5d-dst-residual:")
        ]
        number = residuals[0] if residuals else "?"
        body = number.encode()
        writer.write(b"HTTP/1.1 200 OK\r\nContent-Length: %d\r\n\r\n" % len(body) + body)
        await writer.drain()
    writer.close()


def answers(text):
    async def serve(reader, writer):
        with contextlib.suppress(asyncio.IncompleteReadError, ConnectionError):
            await reader.readuntil(b"\r\n\r\n")
            writer.write(text)
            await writer.drain()
        writer.close()

    return serve


async def never_answers(reader, writer):
    with contextlib.suppress(ConnectionError):
        await reader.read()
    writer.close()


async def never_ends(reader, writer):
    with contextlib.suppress(asyncio.IncompleteReadError, ConnectionError):
        await reader.readuntil(b"\r\n\r\n")
        writer.write(b"HTTP/1.1 200 OK\r\nContent-Length: 1000000000000\r\n\r\n")
        while True:
            writer.write(bytes(65536))
            await writer.drain()
    writer.close()


class Meeting:
    """An upstream that answers once as many requests are with it as there are workers."""

    def __init__(self):
        self.count, self.is_full = 0, asyncio.Event()

    async def serve(self, reader, writer):
        with contextlib.suppress(asyncio.IncompleteReadError, ConnectionError):
            await reader.readuntil(b"\r\n\r\n")
            self.count += 1
            if self.count == WORKERS:
                self.is_full.set()
            await self.is_full.wait()
            writer.write(b"HTTP/1.1 200 OK\r\nContent-Length: 0\r\n\r\n")
            await writer.drain()
        writer.close()


class Counts:
    def __init__(self):
        self.wrong = []

    def expect(self, what, good):
        if not good:
            self.wrong.append(what)

    def section(self, text, before):
        print(f"{text}: {len(self.wrong) - before} wrong", flush=True)


async def all_at_once(router, counts):
    before, good = len(counts.wrong), 0

    async def one(number):
        nonlocal good
        try:
            asking = ask(router, "GET", "/", [("Host", "web")])
            status, _, body = await asyncio.wait_for(asking, 120)
            is_right = status == 200 and body == b"/0"
            counts.expect(f"connection {number}: {status} {body!r}", is_right)
            good += 1
        except (OSError, asyncio.TimeoutError, asyncio.IncompleteReadError) as fault:
            counts.expect(f"connection {number}: {fault!r}", False)

    await asyncio.gather(*(one(number) for number in range(AT_ONCE)))
    counts.section(f"{AT_ONCE} connections at once on {WORKERS} workers, {good} answered", before)


async def swaps_during_load(router, namerd, upstream, counts):
    before, requests, version = len(counts.wrong), 0, 1
    loop = asyncio.get_running_loop()
    end = loop.time() + SECONDS
    ready = asyncio.Event()

    async def load(number):
        nonlocal requests
        reader, writer = await asyncio.open_connection("127.0.0.1", router)
        seen = 0
        while loop.time() < end or not ready.is_set():
            status, _, body = await ask(
                router, "GET", "/", [("Host", "web")], reader=reader, writer=writer
            )
            now = int(body[1:]) if status == 200 and body[:1] == b"/" and body[1:].isdigit() else -1
            counts.expect(f"connection {number}: {status} {body!r} behind /{seen}", now >= seen)
            seen = max(seen, now)
            requests += 1
        writer.close()
        return seen

    async def swap():
        nonlocal version
        reader, writer = await asyncio.open_connection("127.0.0.1", namerd)
        began, number = loop.time(), 0
        while loop.time() < end:
            number += 1
            table = f"/svc/web => /$/inet/127.0.0.1/{upstream}/{number}".encode()
            status, fields, _ = await ask(
                namerd,
                "PUT",
                "/api/1/dtabs/default",
                [("Host", "n"), ("If-Match", f'"{version}"')],
                table,
                reader,
                writer,
            )
            is_right = status == 204 and fields.get("etag") == f'"{version + 1}"'
            counts.expect(f"put {number}: {status} {fields.get('etag')}", is_right)
            version += 1
            await asyncio.sleep(max(0, began + number / SWAPS - loop.time()))
        writer.close()
        ready.set()
        return number

    *seen, swapped = await asyncio.gather(*(load(number) for number in range(KEPT)), swap())
    counts.section(
        f"{requests} requests during {swapped} swaps in {SECONDS} s, " f"the last seen {max(seen)}",
        before,
    )
    status, fields, body = await ask(
        namerd, "GET", "/api/1/dtabs/default", [("Host", "n"), ("Accept", "application/dtab")]
    )
    counts.expect(
        f"last table: {status} {fields.get('etag')} {body!r}",
        status == 200
        and fields.get("etag") == f'"{version}"'
        and body.rstrip().endswith(f"/{swapped}".encode()),
    )
    status, _, body = await ask(router, "GET", "/", [("Host", "web")])
    return swapped


async def bad_upstreams(router, counts):
    before = len(counts.wrong)
    for name, want in (("early", b"upstream\n"), ("garbage", b"upstream\n"), ("closed", b"dial\n")):
        status, fields, body = await ask(router, "GET", "/", [("Host", name)])
        counts.expect(f"{name}: {status} {body!r}", status == 502 and body == want)
    reader, writer = await asyncio.open_connection("127.0.0.1", router)
    writer.write(b"GET / HTTP/1.1\r\nHost: short\r\n\r\n")
    whole = await asyncio.wait_for(reader.read(), 30)
    is_right = whole.startswith(b"HTTP/1.1 200 OK\r\n") and whole.endswith(b"\r\n\r\nhalf")
    counts.expect(f"short: {whole!r}", is_right)
    writer.close()
    counts.section(
        "upstreams that close early, send no HTTP, end in a body or are not there", before
    )


async def bad_clients(router, counts):
    before = len(counts.wrong)
    reader, writer = await asyncio.open_connection("127.0.0.1", router)
    for byte in b"GET / HTTP/1.1\r\nHost: web\r\n\r\n":
        writer.write(bytes([byte]))
        await writer.drain()
        await asyncio.sleep(0.01)
    status, _, _ = await read_reply(reader)
    counts.expect(f"byte by byte: {status}", status == 200)
    writer.close()
    for _ in range(2 * WORKERS):
        _, writer = await asyncio.open_connection("127.0.0.1", router)
        writer.write(b"GET / HTTP/1.1\r\nHost: web\r\n\r\nGET")
        await writer.drain()
        writer.transport.abort()
    status, _, _ = await asyncio.wait_for(ask(router, "GET", "/", [("Host", "web")]), 70)
    counts.expect(f"behind clients that left: {status}", status == 200)
    counts.section("a client that sends byte by byte, and clients that leave", before)


async def slow_ends(router, counts, process):
    before = len(counts.wrong)
    loop = asyncio.get_running_loop()

    async def timed(what, ends):
        began = loop.time()
        try:
            good = await asyncio.wait_for(ends, LIMIT + 30)
            took = loop.time() - began
            counts.expect(
                f"{what}: ended after {took:.1f} s, {good}",
                good is True and LIMIT - 2 < took < LIMIT + 10,
            )
        except (OSError, asyncio.TimeoutError, asyncio.IncompleteReadError) as fault:
            counts.expect(f"{what}: {fault!r} after {loop.time() - began:.1f} s", False)

    async def unanswered():
        status, _, body = await ask(router, "GET", "/", [("Host", "hangs")])
        return status == 502 and body == b"upstream\n"

    async def unasked():
        reader, writer = await asyncio.open_connection("127.0.0.1", router)
        said = await reader.read()
        writer.close()
        return said == b""

    async def stopped():
        await asyncio.sleep(5)
        process.send_signal(signal.SIGSTOP)
        await asyncio.sleep(0.5)
        process.send_signal(signal.SIGCONT)

    async def status_of_one():
        status, _, _ = await ask(router, "GET", "/", [("Host", "meets")])
        return status

    # This client never reads, so its kernel never learns that it was given up: that as many
    # requests are under way again as there are workers shows it. Its last write may have been taken
    # in part, and then the next one waits as long again.
    unread = socket.create_connection(("127.0.0.1", router))
    unread.sendall(b"GET / HTTP/1.1\r\nHost: endless\r\n\r\n")
    await asyncio.gather(
        timed("no answer", unanswered()), timed("no request", unasked()), stopped()
    )
    try:
        at_once = asyncio.gather(*(status_of_one() for _ in range(WORKERS)))
        statuses = await asyncio.wait_for(at_once, LIMIT + 15)
        counts.expect(f"workers behind them: {statuses}", statuses == [200] * WORKERS)
    except asyncio.TimeoutError:
        counts.expect("workers behind them: not all serve", False)
    unread.close()
    counts.section(
        "an upstream that never answers, clients that never read or ask, and a program "
        "that is stopped for a moment",
        before,
    )


async def main():
    counts = Counts()
    half = b"HTTP/1.1 200 OK\r\nContent-Length: 10\r\n\r\nhalf"
    upstreams = {
        "early": answers(b""),
        "garbage": answers(b"garbage\r\n\r\n"),
        "short": answers(half),
        "hangs": never_answers,
        "endless": never_ends,
        "meets": Meeting().serve,
    }
    router, namerd, admin, number_port, closed_port, *others = free_ports(5 + len(upstreams))
    ports = {"closed": closed_port, **dict(zip(upstreams, others))}
    servers = [
        await asyncio.start_server(serve, "127.0.0.1", ports[name])
        for name, serve in upstreams.items()
    ]
    servers.append(await asyncio.start_server(echo_number, "127.0.0.1", number_port, backlog=2048))
    inet = "/$/inet/127.0.0.1"
    table = "; ".join(f"/svc/{name} => {inet}/{port}" for name, port in ports.items())
    config = {
        "admin": {"port": admin},
        "namerd": {"port": namerd},
        "workers": WORKERS,
        "routers": [{"protocol": "http", "dtab": table, "servers": [{"port": router}]}],
    }
    with tempfile.TemporaryDirectory() as work:
        path = os.path.join(work, "c.json")
        with open(path, "w") as file:
            json.dump(config, file)
        linker = await asyncio.create_subprocess_exec(
            PROGRAM,
            "serve",
            path,
            stdout=asyncio.subprocess.PIPE,
            stderr=asyncio.subprocess.DEVNULL,
        )
        print((await linker.stdout.readline()).decode().rstrip(), flush=True)
        status, fields, _ = await ask(
            namerd,
            "POST",
            "/api/1/dtabs/default",
            [("Host", "n")],
            f"/svc/web => {inet}/{number_port}/0".encode(),
        )
        counts.expect(f"create: {status}", status == 204 and fields.get("etag") == '"1"')
        await all_at_once(router, counts)
        await bad_upstreams(router, counts)
        await bad_clients(router, counts)
        if SLOW:
            await slow_ends(router, counts, linker)
        swapped = await swaps_during_load(router, namerd, number_port, counts)
        status, _, body = await ask(admin, "POST", "/admin/shutdown", [("Host", "a")])
        counts.expect(f"shutdown: {status} {body!r}", status == 200 and body == b"bye\n")
        rest = (await asyncio.wait_for(linker.stdout.read(), 90)).decode()
        ended = await linker.wait()
        print(f"{rest.rstrip()}, status {ended}")
        words = rest.split()
        counts.expect(
            f"end: {rest!r} {ended}",
            ended == 0 and words[:1] == ["closed"] and words[1:] and int(words[1]) == swapped + 1,
        )
    for server in servers:
        server.close()
    for wrong in counts.wrong[:20]:
        print("wrong:", wrong)
    print(f"{len(counts.wrong)} wrong")
    return 1 if counts.wrong else 0


if __name__ == "__main__":
    sys.exit(asyncio.run(main()))
