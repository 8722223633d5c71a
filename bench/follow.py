#!/usr/bin/env python3
"""Three followers of one leader, over loopback: `bench/follow.py [PROGRAM]`.

A leader's table is put 500 times while three `linker follow` poll its feed. In the middle the
leader is killed and started again, which begins a new run with no table; the table is then made
anew. Each follower's pairs of run and place have to rise from line to line, and its last line has
to be the leader's last table. Then each is asked once more, for one poll.

The script ends with 0 where all of that holds.
"""
import asyncio, json, os, sys, tempfile

import faults

ROOT = os.path.dirname(os.path.dirname(os.path.abspath(__file__)))
PROGRAM = sys.argv[1] if sys.argv[1:] else os.path.join(ROOT, "linker")
PUTS, FOLLOWERS, POLLS = 500, 3, 1_000_000


async def start(path):
    leader = await asyncio.create_subprocess_exec(
        PROGRAM, "serve", path, stdout=asyncio.subprocess.PIPE, stderr=asyncio.subprocess.DEVNULL
    )
    serving = (await leader.stdout.readline()).decode().rstrip()
    print(serving, flush=True)
    return leader


async def put_tables(namerd, numbers, text_of):
    """Makes the namespace, and then puts a table for each further number."""
    fields = [("Host", "n"), ("Content-Type", "application/dtab")]
    for at, number in enumerate(numbers):
        status, _, _ = await faults.ask(
            namerd,
            "PUT" if at else "POST",
            "/api/1/dtabs/default",
            fields,
            text_of(number).encode(),
        )
        assert status == 204, status
        await asyncio.sleep(0.004)


async def follow(feed, lines):
    follower = await asyncio.create_subprocess_exec(
        PROGRAM,
        "follow",
        f"127.0.0.1:{feed}",
        "default",
        str(POLLS),
        stdout=asyncio.subprocess.PIPE,
    )

    async def read():
        while line := await follower.stdout.readline():
            lines.append(line.decode().rstrip())

    return follower, asyncio.ensure_future(read())


def places_of(lines):
    """The pairs of run and place of the lines, in order."""
    return [(int(words[1]), int(words[3])) for words in map(str.split, lines)]


async def main():
    router, namerd, admin, feed = faults.free_ports(4)
    config = {
        "admin": {"port": admin},
        "namerd": {"port": namerd},
        "feed": {"port": feed},
        "routers": [{"protocol": "http", "servers": [{"port": router}]}],
    }
    wrong = []
    text_of = lambda number: f"/svc=>/host/v{number}"
    with tempfile.TemporaryDirectory() as work:
        path = os.path.join(work, "c.json")
        with open(path, "w") as file:
            json.dump(config, file)
        leader = await start(path)
        said = [[] for _ in range(FOLLOWERS)]
        followers = [await follow(feed, lines) for lines in said]
        await put_tables(namerd, range(PUTS // 2), text_of)
        leader.kill()
        await leader.wait()
        leader = await start(path)
        await put_tables(namerd, range(PUTS // 2, PUTS), text_of)
        last = text_of(PUTS - 1)
        for _ in range(200):
            if all(lines and lines[-1].endswith(f" dtab {last}") for lines in said):
                break
            await asyncio.sleep(0.05)
        for follower, reading in followers:
            if follower.returncode is None:
                follower.kill()
            await follower.wait()
            await reading
        once = await asyncio.create_subprocess_exec(
            PROGRAM, "follow", f"127.0.0.1:{feed}", "default", "1", stdout=asyncio.subprocess.PIPE
        )
        whole = (await once.communicate())[0].decode().splitlines()
        await faults.ask(admin, "POST", "/admin/shutdown", [("Host", "a")])
        await leader.stdout.read()
        status = await leader.wait()
    for at, lines in enumerate(said):
        told = [line for line in lines if line.startswith("run ")]
        places = places_of(told)
        runs = len({run for run, _ in places})
        print(f"follower {at}: {len(told)} lines of {runs} runs, the last: {told[-1:]}")
        if any(not one < next for one, next in zip(places, places[1:])):
            wrong.append(f"follower {at}: places do not rise")
        if not told or not told[-1].endswith(f" dtab {last}") or runs != 2:
            wrong.append(f"follower {at}: {told[-1:]} of {runs} runs")
    print("\n".join(whole))
    if len(whole) != 2 or not whole[0].endswith(f" dtab {last}") or once.returncode != 0:
        wrong.append(f"one poll: {whole}, status {once.returncode}")
    if whole[1:] != ["polls 1 newer 1 lost 0"] or status != 0:
        wrong.append(f"one poll: {whole}, status of the leader {status}")
    for what in wrong:
        print("wrong:", what)
    print(f"{len(wrong)} wrong")
    return 1 if wrong else 0


if __name__ == "__main__":
    sys.exit(asyncio.run(main()))
