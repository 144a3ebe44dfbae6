"""Runs the cases. See tests/attack."""
from __future__ import annotations

import argparse
import os
import random
import resource
import signal
import sys
import tempfile
import traceback
import warnings
from collections import Counter
from collections.abc import Sequence
from concurrent.futures import ProcessPoolExecutor, wait
from contextlib import suppress
from multiprocessing import active_children, get_context
from pathlib import Path

from hypothesis import HealthCheck, Phase, given, seed, settings, strategies

from . import KINDS, SELDOM
from .common import Broken, Draw, Kind

BLOCK = 500  # cases of one run of hypothesis, which keeps all of them in memory
SHOWN = 20  # failures that are shown
FILES = 128  # that may be open at once, so that cases fail if files stay open


class Attack:
    """Runs cases of some kinds, and counts how they end. Hypothesis draws the kind and the number of each case."""

    def __init__(self, names: Sequence[str], folder: Path) -> None:
        self.kinds: dict[str, Kind] = {}
        for name in names:
            room = folder / name.replace(" ", "_")
            room.mkdir(parents=True)
            self.kinds[name] = KINDS[name](room)
        self.ends: Counter[tuple[str, str]] = Counter()
        self.failed = 0
        self.cases = 0

    def run(self, number: int, first: int, count: int) -> None:
        """Runs so many cases at a seed, from case `first` on."""
        wanted = self.cases + count
        while self.cases < wanted:
            done = first + count - (wanted - self.cases)
            self.block(random.Random(f"{number} {done}").getrandbits(64), wanted - self.cases)

    def add(self, other: Attack) -> None:
        """Counts the cases of another process."""
        self.ends += other.ends
        self.failed += other.failed
        self.cases += other.cases

    def block(self, number: int, count: int) -> None:
        often = [kind for kind in self.kinds for _ in range(1 if kind in SELDOM else 10)]

        @seed(number)
        @settings(max_examples=count, database=None, deadline=None, phases=[Phase.generate],
                  suppress_health_check=list(HealthCheck))
        @given(strategies.sampled_from(often), strategies.binary(min_size=8, max_size=8))  # small integers would come often
        def attack(kind: str, case: bytes) -> None:
            self.case(kind, int.from_bytes(case, "big"))

        attack()

    def case(self, kind: str, number: int) -> None:
        """Runs a case. Anything but a refusal or a result that keeps the law is a failure."""
        draw = Draw(number)
        self.cases += 1
        try:
            self.ends[kind, self.kinds[kind].case(draw)] += 1
        except Broken as fault:
            self.fail(kind, number, draw, str(fault))
        except Exception as fault:
            lines = traceback.format_exception(type(fault), fault, fault.__traceback__)
            self.fail(kind, number, draw, "".join(lines[-4:]).strip())

    def fail(self, kind: str, number: int, draw: Draw, why: str) -> None:
        self.failed += 1
        if self.failed <= SHOWN:
            print(f"failed: --kind {kind} --case {number}: {'; '.join(draw.said)}: {why}", flush=True)


def run_share(names: Sequence[str], folder: Path, number: int, count: int, share: int, jobs: int) -> Attack:
    """Runs every `jobs`-th block of cases."""
    attack = Attack(names, folder / str(share))
    try:
        for first in range(BLOCK * share, count, BLOCK * jobs):
            attack.run(number, first, min(BLOCK, count - first))
    except KeyboardInterrupt:
        print("interrupted", flush=True)
    attack.kinds.clear()
    return attack


def run_shares(names: Sequence[str], folder: Path, number: int, count: int, jobs: int) -> Attack:
    """Divides the cases among processes."""
    whole = Attack([], folder)
    with ProcessPoolExecutor(jobs, get_context("fork"), signal.signal, (signal.SIGTERM, signal.default_int_handler)) as pool:
        futures = [pool.submit(run_share, names, folder, number, count, share, jobs) for share in range(jobs)]
        try:
            wait(futures)
        except KeyboardInterrupt:
            for process in active_children():
                os.kill(process.pid, signal.SIGTERM)
        for future in futures:
            with suppress(KeyboardInterrupt):  # one that had no case yet
                whole.add(future.result())
    return whole


def main() -> int:
    """Runs the attack that the words describe."""
    parser = argparse.ArgumentParser(prog="tests/attack", description="Attacks the readers of the package with wrong inputs.")
    parser.add_argument("--seed", type=int, help="the seed; a drawn one by default")
    parser.add_argument("--count", type=int, default=300, help="how many cases (%(default)s)")
    parser.add_argument("--jobs", type=int, default=1, help="how many processes run them (%(default)s); the cases are the same")
    parser.add_argument("--kind", action="append", choices=sorted(KINDS), help="only cases of this kind; may be given again")
    parser.add_argument("--case", type=int, metavar="N", help="only this case of the kind, as the line of a failure names it")
    words = parser.parse_args()
    if words.case is not None and len(words.kind or []) != 1:
        parser.error("--case needs one --kind")
    number = random.SystemRandom().getrandbits(32) if words.seed is None else words.seed
    warnings.simplefilter("ignore")
    resource.setrlimit(resource.RLIMIT_NOFILE, (FILES, FILES))
    signal.signal(signal.SIGTERM, signal.default_int_handler)
    with tempfile.TemporaryDirectory(prefix="fmm-attack-", dir="/dev/shm" if Path("/dev/shm").is_dir() else None) as folder:
        tempfile.tempdir = folder  # also that of the package
        names = words.kind or list(KINDS)
        if words.case is not None:
            attack = Attack(names, Path(folder))
            attack.case(names[0], words.case)
        elif words.jobs > 1:
            attack = run_shares(names, Path(folder), number, words.count, words.jobs)
        else:
            attack = run_share(names, Path(folder), number, words.count, 0, 1)
    for (kind, end), count in sorted(attack.ends.items()):
        print(f"{kind}: {count} {end}")
    print(f"tests/attack: {attack.cases} cases, {attack.failed} failed, seed {number}")
    return 1 if attack.failed else 0


if __name__ == "__main__":
    sys.exit(main())
