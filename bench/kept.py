#!/usr/bin/env python3
"""Restarts replicas of three kinds under load, over kept connections: `bench/kept.py [PROGRAM]`.

A `linker serve` with `routers[0].client.hostConnectionPool` stands in front of one replica, which
is Python's server, Node's where `node` is installed, or nginx where `nginx` is. Each of them ends
idle connections within milliseconds, so that many a kept connection is ended just as it is taken
up. While 16 clients ask, the replica is restarted every half second: the next process takes over
the listening socket, and the one before ends in the ordinary way. Each request has a number of its
own, which its replica notes and answers with. It must hold that

- each client gets 200 and its own number, for each request: none is lost, and no reply goes to
  another request;
- a POST reaches the replica exactly once, and a GET at least once;
- connections are kept at all: there are fewer than requests by a fifth at least;
- the program ends with status 0.

The script ends with 0 where all of that holds.
"""
import asyncio, collections, contextlib, json, os, shutil, signal, socket, subprocess, sys, tempfile

import faults

ROOT = os.path.dirname(os.path.dirname(os.path.abspath(__file__)))
PROGRAM = os.path.abspath(sys.argv[1] if sys.argv[1:] else os.path.join(ROOT, "linker"))
CLIENTS, SECONDS, EVERY = 16, 6, 0.5

PYTHON = """
import http.server, os, signal, socket, sys, threading
noted = open(sys.argv[2], "ab", buffering=0)
class Replica(http.server.BaseHTTPRequestHandler):
    protocol_version, timeout = "HTTP/1.1", 0.05
    def setup(self):
        super().setup()
        noted.write(b"connection\\n")
    def answer(self):
        self.rfile.read(int(self.headers.get("Content-Length", 0)))
        noted.write(f"{self.command} {self.path}\\n".encode())
        body = self.path.encode()
        self.send_response(200)
        self.send_header("Content-Length", str(len(body)))
        self.end_headers()
        self.wfile.write(body)
    do_GET = do_POST = answer
    def log_message(self, *_):
        pass
class Server(http.server.ThreadingHTTPServer):
    daemon_threads, block_on_close = False, True
server = Server(("127.0.0.1", 0), Replica, bind_and_activate=False)
server.socket.close()
server.socket = socket.socket(fileno=os.dup(int(sys.argv[1])))
signal.signal(signal.SIGTERM, lambda *_: threading.Thread(target=server.shutdown).start())
server.serve_forever(poll_interval=0.01)
server.server_close()
"""

NODE = """
const fs = require("fs"), http = require("http");
const noted = fs.openSync(process.argv[3], "a");
const server = http.createServer((request, reply) => {
    request.on("data", () => {}).on("end", () => {
        fs.writeSync(noted, `${request.method} ${request.url}\\n`);
        reply.setHeader("Content-Length", request.url.length);
        reply.end(request.url);
    });
});
server.keepAliveTimeout = 1;
server.on("connection", () => fs.writeSync(noted, "connection\\n"));
server.listen({ fd: Number(process.argv[2]) });
process.on("SIGTERM", () => {
    server.close(() => process.exit(0));
    server.closeIdleConnections();
});
"""

NGINX = """
daemon off; master_process on; worker_processes 1; pid nginx.pid; error_log stderr crit;
events {{ worker_connections 512; }}
http {{
    log_format noted '$request_method $request_uri';
    access_log {noted} noted;
    client_body_temp_path t1; proxy_temp_path t2; fastcgi_temp_path t3; uwsgi_temp_path t4;
    scgi_temp_path t5; keepalive_timeout 20ms; keepalive_requests 50;
    server {{ listen 127.0.0.1:{port}; location / {{ return 200 $request_uri; }} }}
}}
"""


class Children:
    """A replica whose processes take over one listening socket, one after another."""

    def __init__(self, words, work):
        self.words, self.work, self.running = words, work, []
        self.listening = socket.socket()
        self.listening.bind(("127.0.0.1", 0))
        self.listening.listen(512)
        self.port = self.listening.getsockname()[1]

    async def start(self):
        number = self.listening.fileno()
        self.running.append(
            await asyncio.create_subprocess_exec(
                *self.words, str(number), os.path.join(self.work, "noted"), pass_fds=[number]
            )
        )
        await asyncio.sleep(0.3)

    async def restart(self):
        await self.start()
        self.running[-2].send_signal(signal.SIGTERM)

    async def end(self):
        self.listening.close()
        self.running[-1].send_signal(signal.SIGTERM)
        for child in self.running:
            await child.wait()


class Nginx:
    """nginx, which restarts its workers at a signal."""

    def __init__(self, work):
        self.work, (self.port,) = work, faults.free_ports(1)
        with open(os.path.join(work, "nginx.conf"), "w") as file:
            file.write(NGINX.format(noted=os.path.join(work, "noted"), port=self.port))

    async def start(self):
        self.child = await asyncio.create_subprocess_exec(
            "nginx", "-p", self.work, "-c", "nginx.conf", "-e", "stderr"
        )
        await asyncio.sleep(0.5)

    async def restart(self):
        self.child.send_signal(signal.SIGHUP)

    async def end(self):
        self.child.send_signal(signal.SIGQUIT)
        await self.child.wait()


async def client(port, of_client, end, said):
    """Asks over one connection: a POST each fourth time, and with a pause now and then."""
    reader, writer = await asyncio.open_connection("127.0.0.1", port)
    loop, asked = asyncio.get_running_loop(), 0
    while loop.time() < end:
        asked += 1
        target = f"/{of_client}/{asked}"
        method, body = ("POST", b"x" * 100) if asked % 4 == 0 else ("GET", b"")
        status, _, reply = await faults.ask(
            port, method, target, [("Host", "web")], body, reader=reader, writer=writer
        )
        said[f"{method} {target}"] = status, reply
        if asked % 3 == 0:
            await asyncio.sleep(0.001 * (asked % 40))
    writer.close()


async def served(replica, work):
    """What the clients were told, by the request, and the status of the program."""
    router, namerd, admin = faults.free_ports(3)
    os.mkdir(os.path.join(work, "disco"))
    with open(os.path.join(work, "disco", "web"), "w") as file:
        file.write(f"127.0.0.1 {replica.port}\n")
    with open(os.path.join(work, "c.json"), "w") as file:
        json.dump(
            {
                "admin": {"port": admin},
                "namerd": {"port": namerd},
                "workers": CLIENTS,
                "namers": [{"kind": "io.l5d.fs", "rootDir": "disco"}],
                "routers": [
                    {
                        "protocol": "http",
                        "dtab": "/svc => /#/io.l5d.fs",
                        "servers": [{"port": router}],
                        "client": {"hostConnectionPool": {}},
                    }
                ],
            },
            file,
        )
    linker = await asyncio.create_subprocess_exec(
        PROGRAM,
        "serve",
        "c.json",
        cwd=work,
        stdout=asyncio.subprocess.PIPE,
        stderr=asyncio.subprocess.DEVNULL,
    )
    await linker.stdout.readline()
    said, end = {}, asyncio.get_running_loop().time() + SECONDS
    clients = [asyncio.ensure_future(client(router, at, end, said)) for at in range(CLIENTS)]
    while not all(one.done() for one in clients):
        await asyncio.wait(clients, timeout=EVERY)
        await replica.restart()
    await asyncio.gather(*clients)
    await faults.ask(admin, "POST", "/admin/shutdown", [("Host", "a")])
    await linker.stdout.read()
    return said, await linker.wait()


async def round_of(name, replica, work):
    """What is wrong of a round."""
    await replica.start()
    said, status = await served(replica, work)
    await replica.end()
    with open(os.path.join(work, "noted")) as file:
        noted = collections.Counter(file.read().split("\n"))
    connections = noted.pop("connection", None)
    lost = {
        request: told
        for request, told in said.items()
        if told != (200, request.split()[1].encode())
    }
    twice = [request for request in said if request.startswith("POST") and noted[request] != 1]
    never = [request for request in said if noted[request] == 0]
    again = sum(noted[request] - 1 for request in said if request.startswith("GET"))
    print(
        f"{name}: {len(said)} requests, {len(lost)} lost, {len(twice)} POST not sent once, "
        f"{again} GET sent again" + ("" if connections is None else f", {connections} connections"),
        flush=True,
    )
    wrong = []
    if lost:
        wrong.append(f"{name}: {list(lost.items())[:3]}")
    if twice or never:
        wrong.append(f"{name}: sent {twice[:3]}, never {never[:3]}")
    if connections is not None and not connections < 0.8 * len(said):
        wrong.append(f"{name}: {connections} connections")
    if status or len(said) < 1000:
        wrong.append(f"{name}: status {status}, {len(said)} requests")
    return wrong


async def main():
    wrong = []
    with contextlib.ExitStack() as stack:

        def work():
            return stack.enter_context(tempfile.TemporaryDirectory())

        at = work()
        wrong += await round_of("python", Children([sys.executable, "-c", PYTHON], at), at)
        if shutil.which("node"):
            at = work()
            with open(os.path.join(at, "replica.js"), "w") as file:
                file.write(NODE)
            words = ["node", os.path.join(at, "replica.js")]
            wrong += await round_of("node", Children(words, at), at)
        if shutil.which("nginx"):
            at = work()
            wrong += await round_of("nginx", Nginx(at), at)
    for what in wrong:
        print("wrong:", what)
    print(f"{len(wrong)} wrong")
    return 1 if wrong else 0


if __name__ == "__main__":
    sys.exit(asyncio.run(main()))
