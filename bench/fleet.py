#!/usr/bin/env python3
"""fleet.py PROGRAM NETWORK TRACES [options]: sends a simulated fleet through `PROGRAM streams`, and measures it.

Each of the vehicles drives one drive of a trace file in centimetres after the other, a position each two seconds, and rests 1.5
times as long as a drive. Of 1,000 vehicles 400 report at a time if the drives are equally long: 200 rows a second. The vehicles
take the drives of the file in turn, and begin again with the first one. The rows come in the order of their times. They go into a
pipe as fast as the program takes them, or at a rate.

The lines of output have the rows so far, the rows a second, and the memory of the program. The last one has also the most memory
that it had, the processor seconds, and the total line. With --rate it has the 50th and 99th percentile and the greatest of the
milliseconds from writing the row after a position, which brings its lines about, to reading them.

  --vehicles N   how many vehicles (1,000)
  --seconds S    simulated seconds (86,400: a day, 17,280,000 rows)
  --rate R       rows a second; without it as fast as it goes
  --once N       instead of the fleet N ids that report once each, half a second apart
  --idle S       the option of `streams`: seconds without a position that end a drive. Without it no drive ends, and a vehicle
                 gets another id for each of its drives
  --most MB      status 1 if the program had more memory
"""
import argparse
import os
import subprocess
import sys
import threading
import time
from collections import deque
from pathlib import Path

import numpy as np
import pandas as pd

SAMPLE = 10  # seconds between lines
BEGIN = 1_000_000  # the time of the first row
BLOCK = 1 << 18


class Drives:
    """The drives of a trace file, one after the other."""

    def __init__(self, path):
        table = pd.read_csv(path)
        self.xy = table[["x", "y"]].to_numpy(np.int64)
        begins = np.flatnonzero(np.append(True, np.diff(table["trace"].to_numpy()) != 0))
        self.first, self.counts = begins, np.diff(np.append(begins, len(table)))

    def rows(self, vehicles, seconds, has_idle):
        """Blocks of rows int64[n, 4] of id, x, y and time, in the order of time."""
        period = int(np.ceil(5 * self.counts.mean()))  # two seconds a position, and 1.5 times as long of rest
        late = [np.zeros((0, 4), np.int64)]
        for turn in range(seconds // period + 1):
            vehicle = np.arange(vehicles)
            drive = (vehicle + vehicles * turn) % len(self.counts)
            counts = self.counts[drive]
            place = np.arange(counts.sum()) - np.repeat(np.cumsum(counts) - counts, counts)
            name = np.repeat(vehicle + 1 + (0 if has_idle else turn * vehicles), counts)
            at = turn * period + np.repeat(vehicle * period // vehicles, counts) + 2 * place
            rows = np.column_stack([name, self.xy[np.repeat(self.first[drive], counts) + place], at])
            rows = np.concatenate([*late, rows])
            is_late = rows[:, 3] >= (turn + 1) * period
            late, rows = [rows[is_late]], rows[~is_late & (rows[:, 3] < seconds)]
            yield rows[np.argsort(rows[:, 3], kind="stable")] + [0, 0, 0, BEGIN]

    def once(self, count):
        """Blocks of rows of ids that report once."""
        for first in range(0, count, 100_000):
            number = np.arange(first, min(first + 100_000, count))
            yield np.column_stack([number + 1, self.xy[number % len(self.xy)], BEGIN + number // 2])


class Run:
    """A program on a pipe."""

    def __init__(self, args, blocks):
        words = [] if args.idle is None else ["--idle", str(args.idle)]
        self.args, self.blocks = args, blocks
        self.child = subprocess.Popen([args.program, "streams", *words, args.network, "/dev/stdin"], bufsize=0,
                                      stdin=subprocess.PIPE, stdout=subprocess.PIPE)
        self.rows = self.most = 0
        self.written, self.delays, self.tail = deque(), [], b""
        self.writer = threading.Thread(target=self.write, daemon=True)
        self.sampler = threading.Thread(target=self.sample, daemon=True)

    def write(self):
        pipe, begin = self.child.stdin, None
        try:
            self.put(b"trace,x,y,time\n")
            for block in self.blocks:
                if not self.args.rate:
                    self.put(("%d,%d,%d,%d\n" * len(block) % tuple(block.ravel().tolist())).encode())
                    self.rows += len(block)
                    continue
                for row in block.tolist():
                    begin = time.monotonic() if begin is None else begin
                    time.sleep(max(0, begin + self.rows / self.args.rate - time.monotonic()))
                    self.written.append(time.monotonic())
                    self.put(b"%d,%d,%d,%d\n" % tuple(row))
                    self.rows += 1
            pipe.close()
        except BrokenPipeError:
            pass  # its status says why

    def put(self, text):
        view = memoryview(text)
        while view:
            view = view[self.child.stdin.write(view):]

    def sample(self):
        began = last = time.monotonic()
        rows = 0
        while self.child.poll() is None:
            time.sleep(0.1)
            self.most = max(self.most, self.memory())
            now = time.monotonic()
            if now - last >= SAMPLE:
                done = self.rows - len(self.written)
                print(f"{now - began:.0f} s, rows {done}, {(done - rows) / (now - last):.0f} a second, "
                      f"memory {self.memory():.0f} MB", flush=True)
                last, rows = now, done

    def memory(self):
        """Megabytes of the program, 0 if it has ended."""
        try:
            return int(Path(f"/proc/{self.child.pid}/statm").read_text().split()[1]) * os.sysconf("SC_PAGE_SIZE") / 2 ** 20
        except (OSError, IndexError):
            return 0

    def read(self):
        """Reads all of the output, and keeps its end. Each position has a line with `fix`, in the order of the rows."""
        rest = b""
        while block := os.read(self.child.stdout.fileno(), BLOCK):
            self.tail = (self.tail + block)[-200:]
            if self.args.rate:
                *lines, rest = (rest + block).split(b"\n")
                for _ in range(sum(b" fix " in line for line in lines)):
                    self.written.popleft()
                    if self.written:  # the row after it
                        self.delays.append(time.monotonic() - self.written[0])

    def end(self):
        self.writer.start()
        self.sampler.start()
        began = time.monotonic()
        self.read()
        _, status, used = os.wait4(self.child.pid, 0)
        self.child.returncode = os.waitstatus_to_exitcode(status)
        self.writer.join()
        self.sampler.join()
        most, seconds = max(self.most, used.ru_maxrss / 1024), time.monotonic() - began
        more = ""
        if self.delays:
            half, nearly = 1000 * np.percentile(self.delays, (50, 99))
            more = f", ms {half:.1f} {nearly:.1f} {1000 * max(self.delays):.1f}"
        print(f"rows {self.rows}, {self.rows / seconds:.0f} a second, most memory {most:.0f} MB, "
              f"processor seconds {used.ru_utime + used.ru_stime:.1f}{more}, status {self.child.returncode}")
        print(self.tail.decode().splitlines()[-1] if self.tail else "no output")
        return self.child.returncode == 0 and (self.args.most is None or most <= self.args.most)


def main():
    parser = argparse.ArgumentParser(description=__doc__, formatter_class=argparse.RawDescriptionHelpFormatter)
    for name in ("program", "network", "traces"):
        parser.add_argument(name)
    for name, kind, default in (("vehicles", int, 1000), ("seconds", int, 86_400), ("rate", float, None), ("once", int, None),
                                ("idle", int, None), ("most", float, None)):
        parser.add_argument(f"--{name}", type=kind, default=default, help=argparse.SUPPRESS)
    args = parser.parse_args()
    drives = Drives(args.traces)
    blocks = drives.once(args.once) if args.once else drives.rows(args.vehicles, args.seconds, args.idle is not None)
    sys.exit(not Run(args, blocks).end())


if __name__ == "__main__":
    main()
