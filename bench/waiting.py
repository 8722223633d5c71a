#!/usr/bin/env python3
"""Holds idle clients beside busy ones, and many clients that ask now and then, in front of
`linker serve` and of nginx.

usage: bench/waiting.py [--program PATH] [--only linker|nginx] [--idle 10000] [--busy 64]
           [--workers 64] [--rounds 3] [--seconds 4] [--clients 2000] [--paced-seconds 20]

It takes about six minutes. Both proxies keep connections to replicas. They have one half of the
processors, clients and replicas the other.

1. 64 busy clients on 64 workers, with nothing beside and with 10,000 idle ones. Each idle client
   was opened, at 2,000 a second, had one request answered and is silent since. Measured are the
   processor time of a request, memory, and the time from the opening of a new connection to its
   first answer. The two are taken in turn, and each idle client then asks once more.
2. 2,000 clients that send a request a second for 20 seconds, over a kept connection each.

   Of both there are `--rounds`, and the proxies take turns in them.
3. `linker` alone, while a table is put 200 times a second through namerd's interface: the same
   2,000 clients, and then busy ones, four times as many as before, so that connections wait though
   they are busy, and go from worker to worker.

Each table sends the requests on with its own number: odd ones to one replica, even ones to the
other. A reply says which replica it is from and the number, so it must hold that

- each request is answered with 200 by the replica that the table of its number names, and on one
  connection the numbers never fall, since the tables are put in their order;
- no connection is lost, and no idle one is ended while it is held, which is less than 60 seconds;
- each table is accepted with the next version, and the last one stands at the end;
- `linker` says at its end how many changes there were, and its status is 0.

The script ends with 0 where all of that holds. What was measured stands in a table, with what is
aimed at, and has no part in the status: of processor times the least of the rounds, of memory the
most, and of the others the middle. It needs a C compiler, `cc`, for the clients and replicas
(bench/waiting_load.c), and nginx where it is to be compared with.
"""
import argparse, contextlib, http.client, json, os, resource, shutil, statistics, subprocess
import sys, tempfile, threading, time

from beside import free_ports

HERE = os.path.dirname(os.path.abspath(__file__))
RATE, PROBES, PROBE_RATE, SWAPS = 2_000, 200, 100, 200
MOST_MEMORY, MOST_GROWTH, MOST_TIMES_NGINX = 60, 5, 2

# Descriptors of a proxy beside its clients: its workers' and those of replicas.
OTHER_DESCRIPTORS = 1_000

NGINX = """
daemon off; worker_processes {processes}; pid nginx.pid; error_log stderr crit;
events {{ worker_connections {connections}; }}
http {{
    access_log off; keepalive_timeout 300s; keepalive_requests 10000000;
    client_body_temp_path t1; proxy_temp_path t2; fastcgi_temp_path t3; uwsgi_temp_path t4;
    scgi_temp_path t5;
    upstream replica {{ server 127.0.0.1:{replica}; keepalive {kept}; }}
    server {{
        listen 127.0.0.1:{port} backlog=4096;
        location / {{
            proxy_pass http://replica; proxy_http_version 1.1;
            proxy_set_header Connection ""; proxy_set_header l5d-dst-residual /1;
        }}
    }}
}}
"""


def halves_of_processors():
    """The processors of the proxies, and those of clients and replicas."""
    all_ = sorted(os.sched_getaffinity(0))
    middle = len(all_) // 2
    return (all_[:middle], all_[middle:]) if middle else (all_, all_)


def on(processors):
    """The words before those of a command that runs on these processors alone."""
    return ["taskset", "-c", ",".join(map(str, processors))]


def raise_limit():
    """Raises the limit of descriptors as far as may be, and gives it."""
    _, hard = resource.getrlimit(resource.RLIMIT_NOFILE)
    hard = 65_536 if hard == resource.RLIM_INFINITY else hard
    resource.setrlimit(resource.RLIMIT_NOFILE, (hard, hard))
    return hard


class Load:
    """The program of the clients and the replicas."""

    def __init__(self, folder, processors):
        self.path, self.processors = os.path.join(folder, "waiting_load"), processors
        source = os.path.join(HERE, "waiting_load.c")
        subprocess.run(["cc", "-O2", "-Wall", "-o", self.path, source], check=True)

    def started(self, *words):
        return subprocess.Popen(
            [*on(self.processors), self.path, *map(str, words)],
            stdin=subprocess.PIPE,
            stdout=subprocess.PIPE,
        )

    def run(self, *words):
        """What clients of this kind say at their end."""
        with ended_at_last(self.started(*words)) as clients:
            return json.loads(clients.communicate(timeout=120)[0])

    @contextlib.contextmanager
    def held(self, port, count):
        """Idle clients, once they are there: what they say then. At the end of the block they ask
        once more and close, and what they say by then is put in as `at_end`."""
        with ended_at_last(self.started("hold", port, count, RATE)) as clients:
            said = json.loads(clients.stdout.readline())
            yield said
            clients.stdin.close()
            said["at_end"] = json.loads(clients.stdout.readline())


@contextlib.contextmanager
def ended_at_last(process):
    """A process that doesn't outlive the block."""
    try:
        yield process
    finally:
        process.kill()
        process.wait()
        for stream in (process.stdin, process.stdout):
            if stream:
                stream.close()


def tree_of(pid):
    """This process, and those that it started."""
    with contextlib.suppress(OSError), open(f"/proc/{pid}/task/{pid}/children") as file:
        return [pid, *(one for child in file.read().split() for one in tree_of(int(child)))]
    return [pid]


def processor_seconds(pid):
    total = 0
    for one in tree_of(pid):
        with open(f"/proc/{one}/stat") as file:
            fields = file.read().rpartition(")")[2].split()
        total += int(fields[11]) + int(fields[12])
    return total / os.sysconf("SC_CLK_TCK")


def resident_megabytes(pid):
    """What the processes have in memory; what several of them share counts once."""
    own, shared = 0, 0
    for one in tree_of(pid):
        kilobytes = {}
        with open(f"/proc/{one}/smaps_rollup") as file:
            for line in file.readlines()[1:]:
                name, value = line.split()[:2]
                kilobytes[name.rstrip(":")] = int(value)
        own += kilobytes["Private_Clean"] + kilobytes["Private_Dirty"]
        shared = max(shared, kilobytes["Shared_Clean"] + kilobytes["Shared_Dirty"])
    return (own + shared) / 1024


def descriptors(pid):
    return sum(len(os.listdir(f"/proc/{one}/fd")) for one in tree_of(pid))


def wait_for_descriptors(pid, most, seconds=20):
    """Waits until a proxy has closed what its clients have closed."""
    end = time.monotonic() + seconds
    while descriptors(pid) > most and time.monotonic() < end:
        time.sleep(0.1)


def ask(port, method, target, body=None, **fields):
    """One request: the status, the ETag and the body of the reply."""
    connection = http.client.HTTPConnection("127.0.0.1", port, timeout=30)
    try:
        return ask_over(connection, method, target, body, **fields)
    finally:
        connection.close()


def ask_over(connection, method, target, body=None, **fields):
    connection.request(method, target, body=body, headers=fields)
    reply = connection.getresponse()
    return reply.status, reply.getheader("ETag"), reply.read()


class Linker:
    """`linker serve` in front of two replicas, whose tables are numbered from 1."""

    name = "linker"

    def __init__(self, options, replicas, processors, wrong):
        self.options, self.replicas, self.processors = options, replicas, processors
        self.wrong, self.number = wrong, 1

    def table(self, number):
        """A table that sends requests to the replica of its number, with the number."""
        replica = self.replicas[0] if number % 2 else self.replicas[1]
        return f"/svc/web => /$/inet/127.0.0.1/{replica}/{number}"

    @contextlib.contextmanager
    def running(self, folder):
        self.port, self.namerd, admin = free_ports(3)
        with open(os.path.join(folder, "c.json"), "w") as file:
            json.dump(
                {
                    "admin": {"port": admin},
                    "namerd": {"port": self.namerd},
                    "workers": self.options.workers,
                    "routers": [
                        {
                            "protocol": "http",
                            "servers": [{"port": self.port}],
                            "client": {"hostConnectionPool": {"maxSize": 2}},
                        }
                    ],
                },
                file,
            )
        process = subprocess.Popen(
            [*on(self.processors), os.path.abspath(self.options.program), "serve", "c.json"],
            cwd=folder,
            stdout=subprocess.PIPE,
            stderr=subprocess.DEVNULL,
        )
        with ended_at_last(process):
            self.pid, line = process.pid, process.stdout.readline()
            if not line.startswith(b"serving"):
                sys.exit(f"linker: {line!r}")
            said = ask(self.namerd, "POST", "/api/1/dtabs/default", self.table(1))
            if said[:2] != (204, '"1"'):
                self.wrong.append(f"linker: the first table: {said}")
            yield
            self.look_at_last_table()
            self.end(process, admin)

    def look_at_last_table(self):
        status, _, text = ask(self.namerd, "GET", "/api/1/dtabs/default", Accept="application/dtab")
        if status != 200 or not text.rstrip().endswith(f"/{self.number}".encode()):
            self.wrong.append(f"linker: the last table is {self.number}, and not {text!r}")

    def end(self, process, admin):
        said = ask(admin, "POST", "/admin/shutdown", "")
        if said[0] != 200:
            self.wrong.append(f"linker: the shutdown: {said}")
        try:
            rest, _ = process.communicate(timeout=90)
        except subprocess.TimeoutExpired:
            self.wrong.append("linker: it doesn't end")
            return
        # Reports of failures are changes too: without one the tables are all.
        if process.returncode != 0 or rest.split() != [b"closed", str(self.number).encode()]:
            self.wrong.append(
                f"linker: {rest!r}, status {process.returncode}, " f"{self.number} tables"
            )

    def swap_tables(self, stop):
        """Puts tables, 200 a second, until it is told to stop."""
        connection = http.client.HTTPConnection("127.0.0.1", self.namerd, timeout=30)
        begin, count = time.monotonic(), 0
        try:
            while not stop.is_set():
                match = f'"{self.number}"'
                said = ask_over(
                    connection,
                    "PUT",
                    "/api/1/dtabs/default",
                    self.table(self.number + 1),
                    **{"If-Match": match},
                )
                if said[:2] != (204, f'"{self.number + 1}"'):
                    self.wrong.append(f"linker: table {self.number + 1}: {said}")
                    return
                self.number += 1
                count += 1
                time.sleep(max(0, begin + count / SWAPS - time.monotonic()))
        except (OSError, http.client.HTTPException) as fault:
            self.wrong.append(f"linker: table {self.number + 1}: {fault!r}")
        finally:
            self.swaps, self.swap_seconds = count, time.monotonic() - begin
            connection.close()


class Nginx:
    """nginx in front of the first replica, with a process for each processor."""

    name = "nginx"

    def __init__(self, options, replicas, processors):
        self.options, self.replica, self.processors = options, replicas[0], processors
        # Any of its processes may have all clients.
        clients = max(options.idle + options.busy, options.clients)
        self.connections = clients + OTHER_DESCRIPTORS

    @contextlib.contextmanager
    def running(self, folder):
        (self.port,) = free_ports(1)
        with open(os.path.join(folder, "nginx.conf"), "w") as file:
            file.write(
                NGINX.format(
                    processes=len(self.processors),
                    connections=self.connections,
                    port=self.port,
                    replica=self.replica,
                    kept=self.options.workers,
                )
            )
        process = subprocess.Popen(
            [*on(self.processors), "nginx", "-p", folder, "-c", "nginx.conf", "-e", "stderr"]
        )
        with ended_at_last(process):
            self.pid = process.pid
            time.sleep(0.5)
            if process.poll() is not None:
                sys.exit("nginx has ended")
            try:
                yield
            finally:
                process.terminate()
                process.wait(30)


def busy(load, proxy, count, seconds):
    """The microseconds of processor time that a request of so many busy clients takes, and what
    the clients said."""
    before = processor_seconds(proxy.pid)
    said = load.run("busy", proxy.port, count, seconds)
    took = processor_seconds(proxy.pid) - before
    return 1e6 * took / said["answered"] if said["answered"] else None, said


def faults_of(what, said, due=None):
    """What clients of one kind found wrong."""
    due = said["due"] if due is None else due
    if said["answered"] != due:
        yield f"{what}: of {due:,} requests {said['answered']:,} were answered"
    for kind in ("wrong", "lost"):
        if said[kind]:
            yield f"{what}: {said[kind]:,} {kind}, the first: {said['problem']}"


def no_figures():
    """The figures of a proxy before its first round, each a list over the rounds."""
    return {
        key: []
        for key in (
            "alone",
            "beside",
            "requests",
            "memory",
            "with_idle",
            "first",
            "first_beside",
            "opening",
            "again",
            "paced",
        )
    }


def idle_beside_busy(load, proxy, options, wrong, found):
    """A round of the first load."""
    before = descriptors(proxy.pid)
    took, said = busy(load, proxy, options.busy, options.seconds)
    wrong += faults_of(f"{proxy.name}: busy clients", said)
    found["alone"].append(took)
    found["requests"].append(said["answered"] / said["seconds"])
    probes = load.run("probe", proxy.port, PROBES, PROBE_RATE)
    wrong += faults_of(f"{proxy.name}: new connections", probes)
    found["first"].append((probes["p50"], probes["p99"]))
    found["memory"].append(resident_megabytes(proxy.pid))
    began = time.monotonic()
    with load.held(proxy.port, options.idle) as held:
        wrong += faults_of(f"{proxy.name}: idle clients", held, options.idle)
        found["opening"].append((held["p50"], held["p99"], held["answered"]))
        took, said = busy(load, proxy, options.busy, options.seconds)
        wrong += faults_of(f"{proxy.name}: busy clients beside idle ones", said)
        found["beside"].append(took)
        found["with_idle"].append(resident_megabytes(proxy.pid))
        probes = load.run("probe", proxy.port, PROBES, PROBE_RATE)
        wrong += faults_of(f"{proxy.name}: new connections beside idle ones", probes)
        found["first_beside"].append((probes["p50"], probes["p99"]))
    at_end = held["at_end"]
    if (ended := at_end["ended"] + at_end["reopened"]) > 0:
        wrong.append(
            f"{proxy.name}: {ended:,} idle clients were ended within "
            f"{time.monotonic() - began:.0f} s"
        )
    wait_for_descriptors(proxy.pid, before + options.busy)
    wrong += faults_of(f"{proxy.name}: idle clients that ask again", at_end, 2 * options.idle)
    found["again"].append((at_end["p50"], at_end["p99"]))


def paced(load, proxy, options, wrong, what):
    said = load.run("paced", proxy.port, options.clients, options.paced_seconds)
    wrong += faults_of(f"{proxy.name}: {what}", said, options.clients * options.paced_seconds)
    return said


def beside_swaps(load, linker, options, wrong):
    """What paced clients say, and many busy ones, while tables are put."""
    stop = threading.Event()
    swapping = threading.Thread(target=linker.swap_tables, args=(stop,))
    swapping.start()
    try:
        clients = paced(load, linker, options, wrong, "paced clients beside swaps")
        _, many = busy(load, linker, 4 * options.busy, options.seconds)
        wrong += faults_of("linker: many busy clients beside swaps", many)
        return clients, many
    finally:
        stop.set()
        swapping.join()


def figures_of(load, proxies, options, wrong):
    """The figures of each proxy, by its name. Rounds are taken in turn, so that what else the
    machine does meets each of them."""
    figures = {proxy.name: no_figures() for proxy in proxies}
    with contextlib.ExitStack() as running:
        for proxy in proxies:
            folder = running.enter_context(tempfile.TemporaryDirectory())
            running.enter_context(proxy.running(folder))
            busy(load, proxy, options.busy, 1)
        for _ in range(options.rounds):
            for proxy in proxies:
                idle_beside_busy(load, proxy, options, wrong, figures[proxy.name])
        for _ in range(options.rounds):
            for proxy in proxies:
                said = paced(load, proxy, options, wrong, "paced clients")
                figures[proxy.name]["paced"].append(said)
        for proxy in proxies:
            if isinstance(proxy, Linker):
                found = figures[proxy.name]
                found["swapped"], found["many"] = beside_swaps(load, proxy, options, wrong)
                found["swaps"] = proxy.swaps, proxy.swap_seconds
    return figures


def least(values):
    return min((value for value in values if value is not None), default=None)


def written(value, unit, digits=1):
    return "none" if value is None else f"{value:.{digits}f} {unit}"


def told(is_met):
    return "met" if is_met else "NOT met"


def times(pairs):
    """The middle 50th and 99th percentile of some rounds, in milliseconds."""
    return " / ".join(f"{statistics.median(one) / 1000:.2f}" for one in zip(*pairs)) or "none"


def growth(found):
    """How much more a request takes beside idle clients, in percent."""
    alone, beside = least(found["alone"]), least(found["beside"])
    return None if not alone or not beside else 100 * (beside / alone - 1)


def rows_of(options, figures):
    """The rows of the table: what was measured, a cell for each proxy, and what is aimed at."""

    def row(what, cell, aim=""):
        return [what, *(cell(found) for found in figures.values()), aim]

    linker, nginx = figures.get("linker"), figures.get("nginx")
    idle = f"{options.idle:,} idle"
    yield row(
        f"requests a second of {options.busy} busy clients",
        lambda found: f"{statistics.median(found['requests']):,.0f}",
    )
    yield row("processor time of a request", lambda found: written(least(found["alone"]), "µs"))
    grown = linker and growth(linker)
    aim = f"at most {MOST_GROWTH} % more: {told(grown is not None and grown <= MOST_GROWTH)}"
    yield row(
        f"the same beside {idle}",
        lambda found: written(least(found["beside"]), "µs")
        + (f", {growth(found):+.1f} %" if growth(found) is not None else ""),
        aim if linker else "",
    )
    yield row("resident memory before", lambda found: written(found["memory"][0], "MiB"))
    aim = linker and f"under {MOST_MEMORY} MB: " + told(
        max(linker["with_idle"]) * 1.048576 < MOST_MEMORY
    )
    yield row(
        f"the same with {idle}", lambda found: written(max(found["with_idle"]), "MiB"), aim or ""
    )
    each = lambda found: (found["with_idle"][0] - found["memory"][0]) * 2**20 / options.idle
    yield row("of that an idle one", lambda found: f"{each(found):,.0f} bytes")
    yield row("a new connection's first answer, p50 / p99 ms", lambda found: times(found["first"]))
    yield row(
        f"the same beside {idle}",
        lambda found: times(found["first_beside"]),
        "not slower" if linker else "",
    )
    yield row(
        f"idle clients, {RATE:,} opened a second: answered",
        lambda found: f"{min(one[2] for one in found['opening']):,}",
    )
    yield row(
        "their first answers, p50 / p99 ms",
        lambda found: times([one[:2] for one in found["opening"]]),
    )
    yield row("their next answers, behind the silence", lambda found: times(found["again"]))
    paced_ = f"{options.clients:,} clients, a request a second"
    count = options.clients * options.paced_seconds
    yield row(
        f"{paced_}: answered",
        lambda found: f"{min(said['answered'] for said in found['paced']):,} of {count:,}",
        "all",
    )
    middle = lambda rounds, key: statistics.median(said[key] for said in rounds)
    percentiles = lambda rounds: " / ".join(
        f"{middle(rounds, key) / 1000:.2f}" for key in ("p50", "p99", "most")
    )
    aim = ""
    if linker and nginx:
        times_nginx = middle(linker["paced"], "p99") / max(middle(nginx["paced"], "p99"), 0.1)
        aim = (
            f"p99 within {MOST_TIMES_NGINX} times nginx's: "
            f"{told(times_nginx <= MOST_TIMES_NGINX)} ({times_nginx:.2f})"
        )
    yield row(
        "their replies, p50 / p99 / longest ms", lambda found: percentiles(found["paced"]), aim
    )
    if linker:
        swaps, seconds = linker["swaps"]
        swapped = lambda write: lambda found: write(found) if found is linker else ""
        yield row(
            f"beside {swaps / seconds:.0f} swaps of the table a second: answered",
            swapped(lambda found: f"{found['swapped']['answered']:,} of {count:,}"),
            "all",
        )
        yield row(
            "their replies, p50 / p99 / longest ms",
            swapped(lambda found: percentiles([found["swapped"]])),
        )
        yield row(
            f"{4 * options.busy} busy clients on {options.workers} workers beside the same: "
            "answered",
            swapped(lambda found: f"{found['many']['answered']:,} of " f"{found['many']['due']:,}"),
            "all",
        )


def options_of_words():
    parser = argparse.ArgumentParser(
        description=__doc__, formatter_class=argparse.RawDescriptionHelpFormatter
    )
    default = os.path.join(HERE, "..", "crates", "linker", "out", "linker")
    parser.add_argument("--program", default=default)
    parser.add_argument("--only", choices=("linker", "nginx"))
    parser.add_argument("--idle", type=int, default=10_000)
    parser.add_argument("--busy", type=int, default=64)
    parser.add_argument("--workers", type=int, default=64)
    parser.add_argument("--rounds", type=int, default=3)
    parser.add_argument("--seconds", type=int, default=4, help="of each round of busy clients")
    parser.add_argument("--clients", type=int, default=2_000)
    parser.add_argument("--paced-seconds", type=int, default=20)
    return parser.parse_args()


def main():
    options, limit, wrong = options_of_words(), raise_limit(), []
    options.idle = min(options.idle, limit - OTHER_DESCRIPTORS)
    options.clients = min(options.clients, limit - OTHER_DESCRIPTORS)
    for_proxies, for_load = halves_of_processors()
    print(
        f"descriptors: {limit:,} at most a process; processors: {for_proxies} for the proxies, "
        f"{for_load} for clients and replicas; {options.workers} workers",
        flush=True,
    )
    with tempfile.TemporaryDirectory() as folder:
        load = Load(folder, for_load)
        with ended_at_last(load.started("replica")) as serving:
            replicas = [int(port) for port in serving.stdout.readline().split()]
            proxies = {
                "linker": Linker(options, replicas, for_proxies, wrong),
                "nginx": Nginx(options, replicas, for_proxies),
            }
            if not shutil.which("nginx"):
                print("nginx is not here, so nothing is compared with it")
                del proxies["nginx"]
            measured = [proxy for name, proxy in proxies.items() if options.only in (None, name)]
            figures = figures_of(load, measured, options, wrong)
    print("\n| what |", " | ".join(figures), "| aim |")
    print("|---" * (len(figures) + 2) + "|")
    for row in rows_of(options, figures):
        print("|", " | ".join(row), "|")
    print()
    for what in wrong[:20]:
        print("wrong:", what)
    print(f"{len(wrong)} wrong")
    return 1 if wrong else 0


if __name__ == "__main__":
    sys.exit(main())
