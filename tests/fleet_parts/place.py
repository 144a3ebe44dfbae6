"""What the tests of fmm fleet share: inputs, calls, and checks that are counted."""
import concurrent.futures
import os
import random
import shutil
import subprocess
import threading
import time

from fork_parts.forker import Forker

TOP = os.path.dirname(os.path.dirname(os.path.dirname(os.path.realpath(__file__))))
FOUND = subprocess.run([os.path.join(TOP, "tests", "find_python")], capture_output=True, text=True)
PYTHON = FOUND.stdout.strip()
os.environ["PYTHONPATH"] = os.path.join(TOP, "python", "src")
MODULES = ("fmm.commands.fleet", "fmm.fleet.call")
lock = threading.Lock()
counts = {True: 0, False: 0}


def check(name, good, more=""):
    with lock:
        counts[bool(good)] += 1
        if not good:
            print(f"failed: {name} {more}".rstrip(), flush=True)


def run_all(tests):
    """Runs tests beside each other, and then the tests that they return."""
    with concurrent.futures.ThreadPoolExecutor(8) as pool:
        futures = [pool.submit(test) for test in tests]
        for future in futures:
            more = future.result()
            futures.extend(pool.submit(test) for test in more or [])


# ---- inputs

SIDE = 40


def make_network(path, below):
    places = {(r, c): (10000 * c + below(2001) - 1000, 10000 * r + below(2001) - 1000)
              for r in range(SIDE) for c in range(SIDE)}
    with open(path, "w") as file:
        file.write("edge,from,to,line\n")
        edge = 7
        for (r, c), (x, y) in places.items():
            for other in ((r, c + 1), (r + 1, c)):
                if other not in places or below(12) == 0:
                    continue
                x2, y2 = places[other]
                middle = f"{(x + x2) // 2 + below(501)} {(y + y2) // 2 + below(501)}"
                a, b = 3 * (r * SIDE + c), 3 * (other[0] * SIDE + other[1])
                file.write(f"{edge},{a},{b},{x} {y};{middle};{x2} {y2}\n")
                file.write(f'{edge + 5},{b},{a},"{x2} {y2} ; {middle} ; {x} {y}"\r\n')
                edge += 11


def make_traces(path, below):
    """Drives over the town. Two vehicles, far apart, alternate first, so that an id comes again in a group at once; other ids come
    again too. Some lines are blank, have spaces, leading zeros or CR LF; some positions are far from every road."""
    with open(path, "w", newline="") as file:
        file.write("trace,x,y,time\n\n")
        for drive in range(90):
            trace = drive % 2 + 1 if drive < 8 else 100 + drive % 37
            r, c = (1 + 30 * (drive % 2),) * 2 if drive < 8 else (below(SIDE), below(SIDE))
            clock = 1000 * drive
            for step in range(12):
                down, right = ((0, 1), (1, 0), (0, -1), (-1, 0))[below(4)]
                if not (0 <= r + down < SIDE and 0 <= c + right < SIDE):
                    down, right = -down, -right
                x = 10000 * c + 5000 * right + below(1601) - 800
                y = 10000 * r + 5000 * down + below(1601) - 800
                if drive % 9 == 4 and step == 5:
                    x -= 3_000_000
                clock += 700 if drive % 7 == 3 and step == 6 else 12
                name = f"{trace:06d}" if step % 5 == 4 else trace
                file.write(f" {name} ,{x},\t{y},{clock}\r\n" if drive % 11 == 5 else f"{name},{x},{y},{clock}\n")
                r, c = r + down, c + right
            if drive % 10 == 9:
                file.write(" \t\n")


# ---- calls

class Place:
    """A folder for the inputs, programs and results of the tests."""

    def __init__(self, folder, program):
        self.folder, self.program = folder, program
        self.forker = Forker(PYTHON, os.environ["PYTHONPATH"], MODULES)
        self.network, self.traces = self.path("network.csv"), self.path("traces.csv")
        below = random.Random(43).randrange
        make_network(self.network, below)
        make_traces(self.traces, below)
        self.options = ["--gap", "300"]
        self.wanted = self.one_run(self.network, self.traces, self.options)

    def path(self, name):
        return os.path.join(self.folder, name)

    def one_run(self, network, traces, options):
        text = subprocess.run([self.program, "match", network, traces, *options], stdout=subprocess.PIPE, check=True).stdout
        return text[:text.rindex(b" rows ")] + b"\n"

    def stub(self, name, on_task):
        """A program that does something in tasks before it runs FMM. $mark is a path of its own."""
        path = self.path(name)
        with open(path, "w") as file:
            file.write(f'#!/bin/sh\nmark={path}.mark\ncase "$*" in */groups/*)\n{on_task}\n;; esac\nexec {self.program} "$@"\n')
        os.chmod(path, 0o755)
        return path

    def words(self, into, *more, program=None, network=None, traces=None, options=None):
        return [PYTHON, "-m", "fmm", "fleet", network or self.network, traces or self.traces, "--into", self.path(into),
                "--program", program or self.program, "--jobs", "2", *more, "--",
                *(self.options if options is None else options)]

    def fleet(self, into, *more, env=None, **named):
        return self.call(self.words(into, *more, **named), env)

    def call(self, words, env=None):
        """Runs `fmm`: with other modules in a new Python, else in a fork."""
        env = {**os.environ, **(env or {})}
        if env["PYTHONPATH"] == os.environ["PYTHONPATH"]:
            return self.forker.call(words[3:], env)
        return subprocess.run(words, capture_output=True, text=True, stdin=subprocess.DEVNULL, env=env)

    def good(self, name, into, done, wanted=None):
        """The call ended well, with the text of one run."""
        try:
            with open(os.path.join(self.path(into), "match.txt"), "rb") as file:
                text = file.read()
        except OSError:
            text = b"no text"
        wanted = self.wanted if wanted is None else wanted
        check(name, done.returncode == 0 and text == wanted and done.stdout.encode() == wanted[wanted.rindex(b"total"):],
              f"status {done.returncode}: {done.stderr.strip()[-300:]}")

    def refused(self, name, done, words, status=1):
        """The call ended with one line that has these words, after the notes."""
        last = done.stderr.strip().splitlines()[-1:]
        check(name, done.returncode == status and "Traceback" not in done.stderr and last and words in last[0]
              and last[0].startswith("fmm fleet: ") and not done.stdout, f"status {done.returncode}: {done.stderr.strip()[-400:]}")

    def copy(self, into, name):
        shutil.copytree(self.path(into), self.path(name))
        return name

    def parts(self, into):
        folder = os.path.join(self.path(into), "parts")
        return sorted(name for name in os.listdir(folder) if name.endswith(".txt")) if os.path.isdir(folder) else []

    def part(self, into, number):
        return os.path.join(self.path(into), "parts", f"{number:06d}.txt")


def change(path, edit):
    with open(path, "rb") as file:
        data = file.read()
    with open(path, "wb") as file:
        file.write(edit(data))


def wait_for(condition, seconds=60):
    end = time.monotonic() + seconds
    while not condition() and time.monotonic() < end:
        time.sleep(0.05)
    return condition()
