#!/usr/bin/env python3
"""Kills one of three replicas of a service under load: `bench/retries.py [PROGRAM]`.

Three rounds, each with a `linker serve` of its own, 32 clients that keep their connections, and a
replica that fails after a second:

- without `routers[0].retries`, the replica's socket is closed: some requests are 502 `dial`;
- with it, the same: none is;
- with it, and so that no replica ever counts as dead, the replica ends each connection that it
  accepts, without a word. Each try can be counted then: the tries beyond the first of each request
  are at most what the budgets of the connections allow, `reserve + percent * requests / 100` for
  each.

The script ends with 0 where all of that holds.
"""
import asyncio, contextlib, json, os, sys, tempfile

import faults

ROOT = os.path.dirname(os.path.dirname(os.path.abspath(__file__)))
PROGRAM = os.path.abspath(sys.argv[1] if sys.argv[1:] else os.path.join(ROOT, "linker"))
CLIENTS, SECONDS, PERCENT, RESERVE = 32, 3, 20, 10


class Replica:
    """A server that answers each request after a moment, until it fails in one of two ways."""

    def __init__(self):
        self.tries, self.is_mute, self.open = 0, False, set()

    async def start(self, port):
        self.server = await asyncio.start_server(self.serve, "127.0.0.1", port, backlog=512)

    async def serve(self, reader, writer):
        self.tries += 1
        self.open.add(writer)
        with contextlib.suppress(asyncio.IncompleteReadError, ConnectionError):
            if not self.is_mute:
                await reader.readuntil(b"\r\n\r\n")
                await asyncio.sleep(0.002)
                writer.write(b"HTTP/1.1 200 OK\r\nContent-Length: 3\r\n\r\nok\n")
                await writer.drain()
        self.open.discard(writer)
        writer.close()

    def kill(self):
        """Closes its socket, and resets what is open."""
        self.server.close()
        for writer in [*self.open]:
            writer.transport.abort()


async def client(port, end, said):
    """Asks over one connection, and gives the number of its requests."""
    reader, writer = await asyncio.open_connection("127.0.0.1", port)
    loop, asked = asyncio.get_running_loop(), 0
    while loop.time() < end:
        status, _, body = await faults.ask(
            port, "GET", "/", [("Host", "web")], reader=reader, writer=writer
        )
        asked += 1
        said[(status, body)] = said.get((status, body), 0) + 1
    writer.close()
    return asked


async def round_of(retries, failures, fail):
    """What the clients were told, their requests, and the tries that the replicas saw."""
    router, namerd, admin, *ports = faults.free_ports(6)
    replicas = [Replica() for _ in ports]
    for replica, port in zip(replicas, ports):
        await replica.start(port)
    routed = {
        "protocol": "http",
        "dtab": "/svc => /#/io.l5d.fs",
        "servers": [{"port": router}],
        "client": {"failureAccrual": {"kind": "io.l5d.consecutiveFailures", "failures": failures}},
        **retries,
    }
    with tempfile.TemporaryDirectory() as work:
        os.mkdir(os.path.join(work, "disco"))
        with open(os.path.join(work, "disco", "web"), "w") as file:
            file.writelines(f"127.0.0.1 {port}\n" for port in ports)
        with open(os.path.join(work, "c.json"), "w") as file:
            json.dump(
                {
                    "admin": {"port": admin},
                    "namerd": {"port": namerd},
                    "workers": CLIENTS,
                    "namers": [{"kind": "io.l5d.fs", "rootDir": "disco"}],
                    "routers": [routed],
                },
                file,
            )
        linker = await asyncio.create_subprocess_exec(
            PROGRAM,
            "serve",
            "c.json",
            cwd=work,
            stdout=asyncio.subprocess.PIPE,
            stderr=asyncio.subprocess.DEVNULL,
        )
        await linker.stdout.readline()
        said, end = {}, asyncio.get_running_loop().time() + SECONDS
        clients = [asyncio.ensure_future(client(router, end, said)) for _ in range(CLIENTS)]
        await asyncio.sleep(1)
        fail(replicas[0])
        asked = sum(await asyncio.gather(*clients))
        await faults.ask(admin, "POST", "/admin/shutdown", [("Host", "a")])
        await linker.stdout.read()
        status = await linker.wait()
    for replica in replicas:
        replica.server.close()
    return said, asked, sum(replica.tries for replica in replicas), status


def mute(replica):
    replica.is_mute = True


def told(said):
    return ", ".join(f"{count} x {status} {body!r}" for (status, body), count in said.items())


async def main():
    key, wrong = {"retries": {"percent": PERCENT, "reserve": RESERVE}}, []

    def expect(what, good):
        if not good:
            wrong.append(what)

    good, failing = (200, b"ok\n"), {(502, b"dial\n"), (502, b"upstream\n")}
    for name, retries in (("without retries", {}), ("with retries", key)):
        said, asked, _, status = await round_of(retries, 5, Replica.kill)
        print(f"{name}, a replica is killed: {told(said)}", flush=True)
        expect(f"{name}: status {status}", status == 0)
        expect(f"{name}: {told(said)}", {*said} <= {good, *failing} and asked > 1000)
        expect(f"{name}: how many fail", ({*said} == {good}) is bool(retries))
    said, asked, tries, status = await round_of(key, 1000, mute)
    most = CLIENTS * RESERVE + PERCENT * asked // 100
    print(
        f"a replica ends each connection without a word: {told(said)}; "
        f"{asked} requests, {tries - asked} retries, {most} at most",
        flush=True,
    )
    expect(
        f"retries: {tries - asked} of {most}, status {status}",
        0 < tries - asked <= most and status == 0,
    )
    for what in wrong:
        print("wrong:", what)
    print(f"{len(wrong)} wrong")
    return 1 if wrong else 0


if __name__ == "__main__":
    sys.exit(asyncio.run(main()))
