#!/usr/bin/env python3
"""service.py NETWORK TRACES [options]: how fast `./fmm serve` is, and whether its answers are those of `match`.

It starts the service with a network, and asks GET /match/v1 for the drives of a trace file in centimetres, in random order. The
edges and costs of each answer are compared with those of `./fmm match`. It prints

  start        seconds until the service answers, beside those in which the program reads the network
  match        drives a second of `./fmm match --workers N` over the trace file, and milliseconds of a processor for each
  throughput   drives a second of the service with clients that ask again as soon as they have an answer, and milliseconds of a
               processor for each, by process
  of match     the throughput as a share of that of `match`, by the clock and by processors without the clients
  half load    the milliseconds from the time at which a request is due to its answer, with half as many requests a second

`match` and the load take turns --repeat times; the best turn of each is printed. The clients run on the same processors.

  --crs CRS        the projection of the files (32N)
  --processes N    of the service, and workers of `match` (4)
  --clients N      clients at the same time (64)
  --seconds S      of each measurement (10)
  --repeat R       turns (3)
  --rate R         requests a second at half load, instead of half the throughput
  --drives N       the first N drives only
  --soak S         instead of the figures: requests at --rate for S seconds. Every hundredth request is a bad one, and each minute
                   a worker or a program is killed; a line each ten seconds
"""
import argparse
import asyncio
import collections
import itertools
import json
import os
import random
import re
import resource
import signal
import subprocess
import sys
import tempfile
import time
from pathlib import Path

import numpy as np
import pandas as pd

TOP = Path(__file__).resolve().parents[1]
sys.path.insert(0, str(TOP / "python" / "src"))
from fmm import Projection  # noqa: E402
from fmm._match_text import read_match  # noqa: E402

TICK = os.sysconf("SC_CLK_TCK")
BAD = {"/match/v1/car/9,54": 400, "/match/v1/car/9,54;x,54": 400, "/match/v1/car/9,54;9,91": 400, "/match/v1/car/1,1;1.1,1": 400,
       "/match/v1/car/9,54;9.1,54?steps=true": 400, "/match/v1/car/9,54;9.1,54?gaps=5": 400, "/route/v1/car/9,54;9.1,54": 404}
SLOW = 0.05  # seconds
PARTS = ("front", "workers", "programs")


class Drives:
    """The drives as requests, and what `match` finds for them."""

    def __init__(self, args):
        projection = Projection.of(args.crs)
        table = pd.read_csv(args.traces)
        self.in_file = table["trace"].nunique()
        if args.drives:
            table = table[table["trace"].isin(table["trace"].unique()[:args.drives])]
        x, y = projection.to_crs(table["x"].to_numpy(), table["y"].to_numpy(), 4326)
        table["x"], table["y"] = np.round(x, 7), np.round(y, 7)
        self.places = [(drive["x"].to_numpy(), drive["y"].to_numpy()) for _, drive in table.groupby("trace", sort=False)]
        self.paths = ["/match/v1/car/" + ";".join(f"{a:.7f},{b:.7f}" for a, b in zip(*place)) for place in self.places]
        self.wanted = self.matched(projection, args.network)
        self.known = {}  # the answers that were found to be right

    def matched(self, projection, network):
        """The edges and costs that `match` finds for the same degrees."""
        lines = ["trace,x,y\n"]
        for number, (x, y) in enumerate(self.places):
            a, b = projection.to_centimetres(x, y, 4326)
            lines += [f"{number},{p},{q}\n" for p, q in zip(a.tolist(), b.tolist())]
        with tempfile.NamedTemporaryFile("w", suffix=".csv") as file:
            file.writelines(lines)
            file.flush()
            done = subprocess.run([str(TOP / "fmm"), "match", network, file.name], capture_output=True, check=True)
        text = read_match(done.stdout)
        found = [[] for _ in self.places]
        for piece, trace in enumerate(text.piece_trace.tolist()):
            route = text.route[text.route_first[piece]:text.route_first[piece + 1]].tolist()
            found[trace].append((route, int(text.cost[piece])))
        return found

    def is_right(self, number, body):
        """Whether an answer has the edges and costs of `match`. Bytes that were found right once are right again."""
        if self.known.get(number) == body:
            return True
        found = [(matching["edges"], matching["weight"]) for matching in json.loads(body)["matchings"]]
        if found == self.wanted[number]:
            self.known[number] = body
        return found == self.wanted[number]


class Connection(asyncio.Protocol):
    """A connection that is kept, with one request at a time."""

    def __init__(self):
        self.is_open, self.answer, self.got = True, None, bytearray()

    def connection_made(self, transport):
        self.transport = transport

    def ask(self, path):
        """Sends a request. Returns a future of the status and the body; status 0: no answer."""
        self.answer = asyncio.get_running_loop().create_future()
        self.transport.write(f"GET {path} HTTP/1.1\r\nhost: localhost\r\n\r\n".encode())
        return self.answer

    def data_received(self, data):
        self.got += data
        head = self.got.find(b"\r\n\r\n", 0, 4096)
        size = head >= 0 and re.search(rb"content-length: (\d+)", self.got[:head])
        if size and len(self.got) == head + 4 + int(size[1]):
            status, body = int(self.got[9:12]), bytes(self.got[head + 4:])
            self.got.clear()
            self.answer.set_result((status, body))

    def connection_lost(self, fault):
        self.is_open = False
        if self.answer and not self.answer.done():
            self.answer.set_result((0, b""))


class Load:
    """Asks a service, and counts what comes back."""

    def __init__(self, port, drives):
        self.port, self.drives, self.idle = port, drives, []
        self.times, self.statuses = [], collections.Counter()
        self.lost = self.wrong = 0

    async def ask(self, number, due, bad=None):
        connection = self.idle.pop() if self.idle else None
        if not connection or not connection.is_open:
            _, connection = await asyncio.get_running_loop().create_connection(Connection, "127.0.0.1", self.port)
        status, body = await connection.ask(bad or self.drives.paths[number])
        self.times.append(time.monotonic() - due)
        self.idle.append(connection)
        self.statuses[status] += 1
        self.lost += status == 0 or status >= 500
        if bad:
            self.wrong += 0 < status < 500 and status != BAD[bad]
        elif status == 200:
            self.wrong += not self.drives.is_right(number, body)

    async def at_once(self, clients, seconds):
        """Clients that ask again as soon as they have an answer."""
        until, draw = time.monotonic() + seconds, random.Random(1)

        async def client():
            while time.monotonic() < until:
                await self.ask(draw.randrange(len(self.drives.paths)), time.monotonic())

        await asyncio.gather(*(client() for _ in range(clients)))

    async def at_rate(self, rate, seconds, bad=0.0, each=()):
        """Requests that begin at their times, whatever the answers do. `each` is pairs of seconds and what is called so often."""
        began, draw, tasks = time.monotonic(), random.Random(2), set()
        calls = [[began + pause, pause, call] for pause, call in each]
        for count in itertools.count(1):
            due = began + count / rate
            if due > began + seconds:
                break
            await asyncio.sleep(max(0, due - time.monotonic()))
            wrong = draw.choice(sorted(BAD)) if draw.random() < bad else None
            task = asyncio.ensure_future(self.ask(draw.randrange(len(self.drives.paths)), due, wrong))
            tasks.add(task)
            task.add_done_callback(tasks.discard)
            for call in calls:
                if due > call[0]:
                    call[0] += call[1]
                    call[2]()
        await asyncio.gather(*tasks)

    def summary(self):
        times = 1000 * np.array(self.times or [np.nan])
        shares = " ".join(f"{share:.1f}" for share in np.percentile(times, (50, 95, 99)))
        return (f"answers {len(times)}, statuses {dict(sorted(self.statuses.items()))}, ms at 50, 95 and 99 % {shares}, "
                f"lost {self.lost}, wrong {self.wrong}, slow {int((times > 1000 * SLOW).sum())}")


class Service:
    """`./fmm serve` on a free port."""

    def __init__(self, args):
        began = time.monotonic()
        words = [str(TOP / "fmm"), "serve", args.network, "--crs", args.crs, "--port", "0", "--processes", str(args.processes)]
        self.process = subprocess.Popen(words, stderr=subprocess.PIPE, text=True)
        said = self.process.stderr.readline()
        self.start = time.monotonic() - began
        found = re.search(r"http://127\.0\.0\.1:([0-9]+)", said)
        if not found:
            raise SystemExit(f"the service does not start: {said}{self.process.stderr.read()}")
        self.port = int(found[1])

    def parts(self):
        """The processes of each part."""
        children = collections.defaultdict(list)
        for path in Path("/proc").glob("[0-9]*/stat"):
            try:
                children[int(path.read_text().rpartition(")")[2].split()[1])].append(int(path.parent.name))
            except OSError:
                continue
        forks = children[self.process.pid]
        workers = [pid for fork in forks for pid in children[fork]]
        return [self.process.pid, *forks], workers, [pid for worker in workers for pid in children[worker]]

    def processor(self):
        """Seconds of a processor that the living processes of each part have used."""
        return np.array([sum(map(processor, pids)) for pids in self.parts()])

    def memory(self):
        """Megabytes of the processes of each part; what processes share counts once."""
        return np.array([sum(map(memory, pids)) for pids in self.parts()])

    def kill_one(self, draw):
        """Kills a worker or a program, but neither the service nor the process that forks workers."""
        some = list(itertools.chain(*self.parts()[1:]))
        if some:
            os.kill(draw.choice(some), signal.SIGKILL)

    def end(self):
        self.process.terminate()
        self.process.wait()


def processor(pid):
    try:
        words = Path(f"/proc/{pid}/stat").read_text().rpartition(")")[2].split()
    except OSError:
        return 0.0
    return (int(words[11]) + int(words[12])) / TICK


def memory(pid):
    try:
        rollup = Path(f"/proc/{pid}/smaps_rollup").read_text()
    except OSError:
        return 0.0
    return sum(int(line.split()[1]) for line in rollup.splitlines() if line.startswith("Pss:")) / 1024


def own():
    used = resource.getrusage(resource.RUSAGE_SELF)
    return used.ru_utime + used.ru_stime


def timed(*words):
    """Seconds of the clock and of a processor that a program takes."""
    began, used = time.monotonic(), resource.getrusage(resource.RUSAGE_CHILDREN)
    subprocess.run(words, input=b"trace,x,y\n", stdout=subprocess.DEVNULL, stderr=subprocess.DEVNULL, check=True)
    after = resource.getrusage(resource.RUSAGE_CHILDREN)
    return time.monotonic() - began, after.ru_utime + after.ru_stime - used.ru_utime - used.ru_stime


def figures(args, drives, service):
    """Prints the figures. Returns how many answers were lost or wrong."""
    fmm, count = str(TOP / "fmm"), drives.in_file
    loading = min(timed(fmm, "match", args.network, "/dev/stdin")[0] for _ in range(args.repeat))
    print(f"start: {service.start:.2f} s; the program reads the network in {loading:.2f} s", flush=True)
    warm = Load(service.port, drives)
    asyncio.run(warm.at_once(args.clients, args.seconds))
    faults, turns = warm.lost + warm.wrong, []
    for _ in range(args.repeat):
        clock, spent = timed(fmm, "match", "--workers", str(args.processes), args.network, args.traces)
        load, began, before, self_before = Load(service.port, drives), time.monotonic(), service.processor(), own()
        asyncio.run(load.at_once(args.clients, args.seconds))
        seconds, done = time.monotonic() - began, len(load.times)
        parts = 1000 * (service.processor() - before) / done
        turns.append((count / clock, 1000 * spent / count, done / seconds, parts, 1000 * (own() - self_before) / done))
        faults += load.lost + load.wrong
        print("  turn: match {:.0f} a second, {:.2f} ms; service {:.0f} a second, {} ms, clients {:.2f} ms".format(
            *turns[-1][:3], parts.round(2), turns[-1][4]), flush=True)
    match_rate, match_spent = max(turn[0] for turn in turns), min(turn[1] for turn in turns)
    best = max(turns, key=lambda turn: turn[2])
    spent = best[3].sum()
    shares = ", ".join(f"{name} {share:.2f}" for name, share in zip(PARTS, best[3]))
    print(f"match: {match_rate:.0f} drives a second, {match_spent:.2f} ms of a processor for each")
    print(f"throughput: {best[2]:.0f} drives a second, {spent:.2f} ms of a processor for each ({shares}; besides, clients "
          f"{best[4]:.2f})")
    print(f"of match: {best[2] / match_rate:.2f} by the clock, {match_spent / spent:.2f} by processors", flush=True)
    half = Load(service.port, drives)
    rate = args.rate or best[2] / 2
    asyncio.run(half.at_rate(rate, args.seconds))
    print(f"half load: {rate:.0f} a second, {half.summary()}")
    return faults + half.lost + half.wrong


def soak(args, drives, service):
    """Prints what happens at a rate. Returns how many answers were lost or wrong."""
    load, draw = Load(service.port, drives), random.Random(3)

    def say():
        parts = service.memory()
        shares = ", ".join(f"{name} {share:.0f}" for name, share in zip(PARTS, parts))
        print(f"{load.summary()}, memory {parts.sum():.0f} MB ({shares})", flush=True)

    asyncio.run(load.at_rate(args.rate, args.soak, 0.01, ((60, lambda: service.kill_one(draw)), (10, say))))
    say()
    return load.lost + load.wrong


def main():
    parser = argparse.ArgumentParser(description=__doc__, formatter_class=argparse.RawDescriptionHelpFormatter)
    for name in ("network", "traces"):
        parser.add_argument(name)
    parser.add_argument("--crs", default="32N", help=argparse.SUPPRESS)
    for name, kind, default in (("processes", int, 4), ("clients", int, 64), ("seconds", float, 10), ("repeat", int, 3),
                                ("rate", float, None), ("drives", int, None), ("soak", float, None)):
        parser.add_argument(f"--{name}", type=kind, default=default, help=argparse.SUPPRESS)
    args = parser.parse_args()
    if args.soak and not args.rate:
        parser.error("--soak needs --rate")
    drives = Drives(args)
    service = Service(args)
    try:
        faults = (soak if args.soak else figures)(args, drives, service)
    finally:
        service.end()
    sys.exit(faults > 0)


if __name__ == "__main__":
    main()
