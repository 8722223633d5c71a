#!/usr/bin/env python3
"""Sends requests through `linker serve` with an access log, and looks at what an operator sees.

usage: bench/recorded.py [PROGRAM] [--requests 100000] [--clients 16] [--prometheus PATH]
                         [--promtool PATH]

16 clients on 16 workers send 100,000 requests over kept connections, each with a target of its own.
Half way through the log is renamed, as a rotation does it, and the program is scraped meanwhile: by
this script, and by a Prometheus server, where there is one.

- Each request has one line, whole, in one of the two files: its target, its status, its bytes, its
  name and its replica. No line stands in both, and none is lost by the rotation.
- Behind the load the counts of the last scrape are those of the requests: by class, tries, bytes of
  replies' bodies, the durations' count, asks for a replica, and the lines of the log. No count ever
  falls.
- The delegations that are kept are one a name, and tables that are created or put are counted.
- A target with a quotation mark, a backslash and bytes past ASCII is escaped; bytes that are no
  head have a line; a name without a replica has its word.
- Where the log can't be written, all requests are answered, the lost lines are counted, and
  standard error says so once.
- Prometheus has scraped the program each time, has its counts, and takes the histogram as one.
- `promtool check metrics` finds nothing. (Debian's package `prometheus` has both programs; a run
  without them says which it did not try.)

The script ends with 0 where nothing was wrong.
"""
import argparse, contextlib, http.client, json, os, re, shutil, socket, subprocess, sys, tempfile
import threading, time, urllib.parse

sys.argv, words = [sys.argv[0]], sys.argv[1:]
import edge
from edge import Replica, free_ports, proxy, read_all, read_head

ROOT = os.path.dirname(os.path.dirname(os.path.abspath(__file__)))
BODY = b"hello, world\n"
REPLY = b"HTTP/1.1 200 OK\r\nContent-Length: 13\r\n\r\n" + BODY
LINE = re.compile(
    r'(\d{4}-\d\d-\d\dT\d\d:\d\d:\d\d\.\d{3}Z) (\S+) "([^"]*)" (\S+) (\d+) (\d+) (\S+) (\S+) (\S+)'
)

faults = []


def check(name, is_right, what=""):
    print(f"{'ok  ' if is_right else 'WRONG'} {name} {what}", flush=True)
    if not is_right:
        faults.append(name)


def answer(connection):
    read_head(connection)
    connection.sendall(REPLY)


class Client(threading.Thread):
    """Sends so many requests over one connection, each with a target of its own."""

    def __init__(self, port, number, count):
        super().__init__(daemon=True)
        self.port, self.number, self.count, self.wrong = port, number, count, None

    def run(self):
        try:
            with socket.create_connection(("127.0.0.1", self.port), timeout=60) as connection:
                for at in range(self.count):
                    # a connection carries 10,000 requests at most
                    if at and at % 10_000 == 0:
                        connection = socket.create_connection(("127.0.0.1", self.port), timeout=60)
                    connection.sendall(
                        f"GET /{self.number}/{at} HTTP/1.1\r\nHost: web\r\n\r\n".encode()
                    )
                    head, rest = read_head(connection)
                    while len(rest) < len(BODY):
                        rest += connection.recv(65_536)
                    if not head.startswith(b"HTTP/1.1 200") or rest != BODY:
                        self.wrong = f"reply {at}: {head!r}"
                        return
        except OSError as error:
            self.wrong = f"{type(error).__name__} {error}"


def scrape(program):
    """The metrics, as text."""
    client = http.client.HTTPConnection("127.0.0.1", program.admin, timeout=30)
    client.request("GET", "/admin/metrics/prometheus")
    reply = client.getresponse()
    text = reply.read().decode()
    check_kind = reply.getheader("Content-Type")
    client.close()
    return reply.status, check_kind, text


def samples(text):
    """The samples of a scrape, by name and labels."""
    found = {}
    for line in text.splitlines():
        if not line.startswith("#"):
            name, value = line.rsplit(" ", 1)
            found[name] = float(value)
    return found


class Prometheus:
    """A Prometheus server that scrapes a program every two seconds."""

    CONFIG = """
global: {scrape_interval: 2s, scrape_timeout: 2s}
scrape_configs:
  - job_name: linker
    metrics_path: /admin/metrics/prometheus
    static_configs: [{targets: ['127.0.0.1:%d']}]
"""

    def __init__(self, path, folder, admin):
        (self.port,) = free_ports(1)
        with open(os.path.join(folder, "prometheus.yml"), "w") as file:
            file.write(self.CONFIG % admin)
        self.server = subprocess.Popen(
            [
                path,
                "--config.file=prometheus.yml",
                "--storage.tsdb.path=data",
                "--log.level=error",
                f"--web.listen-address=127.0.0.1:{self.port}",
            ],
            cwd=folder,
        )

    def ask(self, target):
        """What its interface answers, or nothing where it does not."""
        client = http.client.HTTPConnection("127.0.0.1", self.port, timeout=30)
        try:
            client.request("GET", target)
            return json.loads(client.getresponse().read())["data"]
        except (OSError, http.client.HTTPException, ValueError, KeyError):
            return None
        finally:
            client.close()

    def value(self, query):
        """The value of a query that has one, or nothing."""
        found = self.ask("/api/v1/query?" + urllib.parse.urlencode({"query": query}))
        rows = found["result"] if found else []
        return float(rows[0]["value"][1]) if len(rows) == 1 else None

    def comes_to(self, query, value):
        """What a query gives, once that is this value, or after 20 seconds."""
        end = time.monotonic() + 20
        while (found := self.value(query)) != value and time.monotonic() < end:
            time.sleep(0.5)
        return found

    def target(self):
        """How the program is scraped, as it says."""
        found = self.ask("/api/v1/targets")
        targets = found["activeTargets"] if found else []
        return (targets[0]["health"], targets[0]["lastError"]) if targets else None


@contextlib.contextmanager
def scraped_by(path, program):
    """A Prometheus server, or nothing where there is no path to one."""
    if not path:
        yield None
        return
    with tempfile.TemporaryDirectory() as folder:
        prometheus = Prometheus(path, folder, program.admin)
        try:
            check("Prometheus scrapes", prometheus.comes_to("up", 1) == 1)
            yield prometheus
        finally:
            prometheus.server.terminate()
            prometheus.server.wait(30)


def falls(before, now):
    """The counts that are less than they were."""
    grows = ("_total", "_bucket", "_count", "_sum")
    return [
        name
        for name, value in before.items()
        if name.partition("{")[0].endswith(grows) and now.get(name, 0) < value
    ]


def lines_of(folder, name):
    with open(os.path.join(folder, name), "rb") as file:
        text = file.read()
    check(f"{name} ends with a line feed", text.endswith(b"\n"))
    return text.decode().splitlines()


def under_load(program, folder, clients, requests):
    each = requests // clients
    load = [Client(program.router, number, each) for number in range(clients)]
    for client in load:
        client.start()
    scrapes, is_renamed = [], False
    while any(client.is_alive() for client in load):
        scrapes.append(samples(scrape(program)[2]))
        done = scrapes[-1].get('linker_requests_total{class="2xx"}', 0)
        if not is_renamed and done >= requests / 2:
            os.rename(os.path.join(folder, "access.log"), os.path.join(folder, "access.log.1"))
            is_renamed = True
        time.sleep(0.2)
    for client in load:
        client.join()
        check(f"client {client.number}", client.wrong is None, client.wrong or "")
    check("the log was renamed under load", is_renamed)
    check("no count falls", not any(falls(a, b) for a, b in zip(scrapes, scrapes[1:])))
    return each * clients


def odd_ones(program):
    """Requests with lines of their own kind."""

    def send(text):
        with socket.create_connection(("127.0.0.1", program.router), timeout=30) as connection:
            connection.sendall(text)
            connection.shutdown(socket.SHUT_WR)
            read_all(connection)

    send(b'GET /"\\\xc3\xa9 HTTP/1.1\r\nHost: web\r\nConnection: close\r\n\r\n')
    send(b"no head\r\n\r\n")
    send(b"GET /none HTTP/1.1\r\nHost: none\r\nConnection: close\r\n\r\n")
    # within a head, and between two requests: no exchange
    send(b"GET /cut HTTP/1.1\r\nHo")
    send(b"")


def logged(folder, program, replica, count):
    first, second = lines_of(folder, "access.log.1"), lines_of(folder, "access.log")
    check("both files have lines", bool(first) and bool(second), f"{len(first)} {len(second)}")
    targets, odd, torn = set(), [], 0
    for line in first + second:
        words = LINE.fullmatch(line)
        if not words:
            torn += 1
            continue
        asked = re.fullmatch(r"GET (/\d+/\d+) HTTP/1.1", words[3])
        is_whole = (
            words[4] == "200"
            and words[5] == "13"
            and words[7] == "/svc/web"
            and words[8] == f"127.0.0.1:{replica.port}"
            and words[9] == "-"
        )
        if asked and is_whole:
            targets.add(asked[1])
        else:
            odd.append(line)
    check("no line is torn", torn == 0, torn)
    check("each request has its line", len(targets) == count, f"{len(targets)} of {count}")
    check("each has one", len(first) + len(second) == count + 3, len(first) + len(second))
    words = [LINE.fullmatch(line) for line in odd]
    check("a target is escaped", any(w[3] == r"GET /\x22\x5c\xc3\xa9 HTTP/1.1" for w in words), odd)
    check("bytes that are no head", any(w[3] == "-" and w[4] == "400" for w in words))
    check("a name without a replica", any(w[4] == "502" and w[9] == "negative" for w in words))


def wanted_counts(count):
    """What is counted of so many requests and the odd ones."""
    return {
        'linker_requests_total{class="2xx"}': count + 1,
        'linker_requests_total{class="4xx"}': 1,
        'linker_requests_total{class="5xx"}': 1,
        'linker_own_replies_total{reason="bad-head"}': 1,
        'linker_own_replies_total{reason="negative"}': 1,
        "linker_tries_total": count + 1,
        "linker_failures_reported_total": 0,
        "linker_delegations_kept": 2,
        "linker_tables_written_total": 0,
        "linker_request_duration_seconds_count": count + 3,
        "linker_access_log_lines_total": count + 3,
        "linker_access_log_lost_lines_total": 0,
    }


def counted(program, count, promtool):
    status, kind, text = scrape(program)
    found = samples(text)
    check("the scrape's status", status == 200, status)
    check("its kind", kind == "text/plain; version=0.0.4; charset=utf-8", kind)
    for name, value in wanted_counts(count).items():
        check(name, found.get(name) == value, f"{found.get(name)} for {value}")
    asks = found["linker_delegation_hits_total"] + found["linker_delegation_misses_total"]
    check("asks for a replica", asks == count + 2, f"{asks} for {count + 2}")
    if promtool:
        checked = subprocess.run(
            [promtool, "check", "metrics"], input=text, text=True, capture_output=True
        )
        said = (checked.stdout + checked.stderr).strip()
        check("promtool check metrics", checked.returncode == 0 and not said, said)
    return len(found)


def told(prometheus, count, samples_told):
    """What a Prometheus server has of the program behind the load."""
    for name, value in wanted_counts(count).items():
        found = prometheus.comes_to(name, value)
        check(f"Prometheus has {name}", found == value, f"{found} for {value}")
    target = prometheus.target()
    check("it says that all is well", target == ("up", ""), target)
    check("no scrape failed", prometheus.value("min_over_time(up[1h])") == 1)
    found = prometheus.value("scrape_samples_scraped")
    check("it has every sample", found == samples_told, f"{found} of {samples_told}")
    found = prometheus.value("histogram_quantile(0.5, linker_request_duration_seconds_bucket)")
    check(
        "half of the requests took less than",
        found is not None and 0 < found < 10,
        f"{found} seconds",
    )


def tables(program):
    """Tables that are created or put are counted, and one that is deleted is not."""

    def edit(method, body):
        client = http.client.HTTPConnection("127.0.0.1", program.namerd, timeout=30)
        client.request(method, "/api/1/dtabs/default", body)
        client.getresponse().read()
        client.close()

    edit("POST", "/svc => /host")
    edit("PUT", "/svc => /other")
    edit("DELETE", None)
    found = samples(scrape(program)[2])
    check("tables written", found["linker_tables_written_total"] == 2)
    check("namespaces", found["linker_namespaces"] == 0)


def unwritable(replica):
    """A log in a folder that is not there."""
    with proxy({"web": replica}, 4, keys={"httpAccessLog": "nowhere/access.log"}) as program:
        client = Client(program.router, 0, 1_000)
        client.run()
        check("requests without a log", client.wrong is None, client.wrong or "")
        found = samples(scrape(program)[2])
        check("lost lines", found.get("linker_access_log_lost_lines_total") == 1_000)
    said = [line for line in program.log.splitlines() if "access log" in line]
    check("standard error says so once", len(said) == 1, said)


def crowded():
    """A log where idle clients take all descriptors that they may, renamed meanwhile."""

    def slow(connection):
        read_head(connection)
        time.sleep(0.05)
        connection.sendall(REPLY)

    kept, answered = [], []

    def ask(program):
        for _ in range(8):
            with contextlib.suppress(OSError):
                client = socket.create_connection(("127.0.0.1", program.router), timeout=30)
                kept.append(client)
                client.sendall(b"GET / HTTP/1.1\r\nHost: web\r\n\r\n")
                answered.append(read_head(client)[0].startswith(b"HTTP/1.1 200"))

    def ask_all(program):
        askers = [threading.Thread(target=ask, args=(program,)) for _ in range(40)]
        for asker in askers:
            asker.start()
        for asker in askers:
            asker.join()
        time.sleep(0.5)

    keys = {"httpAccessLog": "access.log"}
    with proxy({"web": Replica(slow)}, 40, 260, keys=keys) as program:
        ask_all(program)
        os.rename(
            os.path.join(program.folder, "access.log"), os.path.join(program.folder, "access.log.1")
        )
        time.sleep(1)
        ask_all(program)
        first, second = (lines_of(program.folder, name) for name in ("access.log.1", "access.log"))
        lost = samples(scrape(program)[2]).get("linker_access_log_lost_lines_total")
    check("requests with few descriptors", answered.count(True) == 640, answered.count(True))
    check(
        "their lines",
        (len(first), len(second), lost) == (320, 320, 0),
        f"{len(first)} and {len(second)}, {lost} lost",
    )


def main():
    parser = argparse.ArgumentParser()
    parser.add_argument("program", nargs="?", default=os.path.join(ROOT, "linker"))
    parser.add_argument("--requests", type=int, default=100_000)
    parser.add_argument("--clients", type=int, default=16)
    parser.add_argument("--prometheus", default=shutil.which("prometheus"))
    parser.add_argument("--promtool", default=shutil.which("promtool"))
    options = parser.parse_args(words)
    edge.PROGRAM = os.path.abspath(options.program)
    replica = Replica(answer)
    with proxy({"web": replica}, options.clients, keys={"httpAccessLog": "access.log"}) as program:
        with scraped_by(options.prometheus, program) as prometheus:
            count = under_load(program, program.folder, options.clients, options.requests)
            odd_ones(program)
            time.sleep(0.5)
            logged(program.folder, program, replica, count)
            samples_told = counted(program, count, options.promtool)
            if prometheus:
                told(prometheus, count, samples_told)
        tables(program)
    unwritable(replica)
    crowded()
    for name in ("prometheus", "promtool"):
        if not getattr(options, name):
            print(f"not tried: {name} is not there")
    sys.exit(1 if faults else 0)


if __name__ == "__main__":
    main()
