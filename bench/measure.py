#!/usr/bin/env python3
"""measure.py FOLDER PROGRAM [PROGRAM ..] [--repeat R] [--jobs NAME,..]: times programs with FMM's command line on the inputs
that make_inputs.py wrote to FOLDER.

Each row is one job of one program: seconds and processor seconds (the least of R runs; the second is steadier on a busy
machine), points a second and a processor second (edges for the jobs that load a network), peak memory in MB (the greatest of
the runs), for the jobs that load a network also in bytes for each edge, and the ratios of processor seconds and memory to the
first program. `same` says that output, error output and exit status are those of the first program. The programs run in turn, so
that a slow minute meets them all. The live program does the jobs of `follow` alone.

The jobs `load large`, `match large` and `country large` run only if they are named. They need programs with large limits, and the
files of `make_inputs.py FOLDER --large`. `country large` matches the traces of `match country` on the large map: without the
seconds of `load large` and `load country` the two should take as long.
"""
import argparse
import hashlib
import os
import shlex
import subprocess
import tempfile
import time

ONE_WORKER = ["--workers", "1"]
ONE_KILOMETRE = ["--bound", "100000"]
HALF_MORE = ["--bound", "150000"]
SPARSE = ["match", "city-net.csv", "city-sparse-traces.csv", "--bound", "600000"]
JOBS = [
    # name, file whose lines are counted, words
    ("load network", "city-net.csv", ["match", "city-net.csv", "no-traces.csv", *ONE_WORKER]),
    ("load country", "country-net.csv", ["match", "country-net.csv", "no-traces.csv", *ONE_WORKER]),
    ("read points", "city-points.csv", ["match", "far-net.csv", "city-points.csv", *ONE_WORKER]),
    ("match points", "city-points.csv", ["match", "city-net.csv", "city-points.csv", *ONE_WORKER]),
    ("match apart", "city-traces.csv", ["match", "city-net.csv", "city-traces.csv", "--gap", "0", *ONE_WORKER]),
    ("match town", "town-traces.csv", ["match", "town-net.csv", "town-traces.csv", *ONE_WORKER]),
    ("match city", "city-traces.csv", ["match", "city-net.csv", "city-traces.csv", *ONE_WORKER]),
    ("match country", "country-traces.csv", ["match", "country-net.csv", "country-traces.csv", *ONE_WORKER]),
    ("country k 1", "country-traces.csv", ["match", "country-net.csv", "country-traces.csv", "--k", "1", *ONE_WORKER]),
    ("long edge", "long-traces.csv", ["match", "long-net.csv", "long-traces.csv", *ONE_WORKER]),
    ("city 2 threads", "city-traces.csv", ["match", "city-net.csv", "city-traces.csv", "--workers", "2"]),
    ("city 4 threads", "city-traces.csv", ["match", "city-net.csv", "city-traces.csv", "--workers", "4"]),
    ("match sparse", "city-sparse-traces.csv", [*SPARSE, *ONE_WORKER]),
    ("sparse 4 thr.", "city-sparse-traces.csv", [*SPARSE, "--workers", "4"]),
    ("match small", "city-small-traces.csv", ["match", "city-net.csv", "city-small-traces.csv", *ONE_WORKER]),
    ("follow small", "city-small-traces.csv", ["follow", "city-net.csv", "city-small-traces.csv", *ONE_WORKER]),
    ("follow city", "city-traces.csv", ["follow", "city-net.csv", "city-traces.csv", *ONE_WORKER]),
    ("streams small", "city-small-stream.csv", ["streams", "city-net.csv", "city-small-stream.csv", *ONE_WORKER]),
    ("half ids", "ids-half.csv", ["streams", "roads-net.csv", "ids-half.csv", *ONE_WORKER]),
    ("many ids", "ids-whole.csv", ["streams", "roads-net.csv", "ids-whole.csv", *ONE_WORKER]),
    ("half roads", "roads-half.csv", ["follow", "roads-net.csv", "roads-half.csv", *ONE_WORKER]),
    ("whole roads", "roads-whole.csv", ["follow", "roads-net.csv", "roads-whole.csv", *ONE_WORKER]),
    ("table", "city-net.csv", ["table", "city-net.csv", *ONE_KILOMETRE]),
    ("with table", "city-small-traces.csv",
     ["match", "city-net.csv", "city-small-traces.csv", "--table", "city-table.txt", *ONE_KILOMETRE, *ONE_WORKER]),
    ("prove small", "city-small-traces.csv", ["prove", "city-net.csv", "city-small-traces.csv", *HALF_MORE]),
    ("check small", "city-small-traces.csv",
     ["check", "city-net.csv", "city-small-traces.csv", "city-proofs.txt", *HALF_MORE]),
]

# Jobs that run only if they are named.
LARGE = [
    ("load large", "large-net.csv", ["match", "large-net.csv", "no-traces.csv", *ONE_WORKER]),
    ("match large", "large-traces.csv", ["match", "large-net.csv", "large-traces.csv", *ONE_WORKER]),
    ("country large", "country-traces.csv", ["match", "large-net.csv", "country-traces.csv", *ONE_WORKER]),
]

# Files that the first program writes for the jobs that read one.
WRITTEN = [("with table", "city-table.txt", ["table", "city-net.csv", *ONE_KILOMETRE]),
           ("check small", "city-proofs.txt", ["prove", "city-net.csv", "city-small-traces.csv", *HALF_MORE])]


def write_file(program, folder, name, words):
    with open(os.path.join(folder, name), "wb") as f:
        subprocess.run(program + words, cwd=folder, stdout=f, check=True)


def write_small_inputs(folder):
    with open(os.path.join(folder, "no-traces.csv"), "w") as f:
        f.write("trace,x,y\n")
    with open(os.path.join(folder, "far-net.csv"), "w") as f:
        f.write("edge,from,to,line\n1,1,2,-1000000000 -1000000000;-999999000 -1000000000\n")


def lines_of(path):
    with open(path, "rb") as f:
        return sum(block.count(b"\n") for block in iter(lambda: f.read(1 << 20), b"")) - 1


def run(command, folder):
    """Seconds, processor seconds, peak memory in bytes, the status, and a digest of all that was answered."""
    with tempfile.TemporaryDirectory(dir=folder) as answers:
        out, err = (os.path.join(answers, name) for name in ("out", "err"))
        with open(out, "wb") as f, open(err, "wb") as g:
            begin = time.monotonic()
            child = subprocess.Popen(command, cwd=folder, stdin=subprocess.DEVNULL, stdout=f, stderr=g)
            _, ended, usage = os.wait4(child.pid, 0)
            seconds = time.monotonic() - begin
        status = child.returncode = os.waitstatus_to_exitcode(ended)
        digest = hashlib.sha256(str(status).encode())
        for path in (out, err):
            with open(path, "rb") as f:
                for block in iter(lambda: f.read(1 << 20), b""):
                    digest.update(block)
    return seconds, usage.ru_utime + usage.ru_stime, usage.ru_maxrss * 1024, status, digest.hexdigest()


def is_live(binary):
    """Whether it is the live program, whose words are those of `follow` without its name."""
    return os.path.basename(binary[-1]) in ("live_program", "fmm_live")


def measure(programs, words, folder, repeat):
    """For each program the least of its runs' seconds and processor seconds, the greatest of their peaks, and the answer."""
    runs = [[] for _ in programs]
    for _ in range(repeat):
        for binary, own in zip(programs, runs):
            own.append(run(binary + (words[1:] if is_live(binary) else words), folder))
    return [(min(r[0] for r in own), min(r[1] for r in own), max(r[2] for r in own), own[0][3], own[0][4]) for own in runs]


def main():
    parser = argparse.ArgumentParser()
    parser.add_argument("folder")
    parser.add_argument("programs", nargs="+")
    parser.add_argument("--repeat", type=int, default=3)
    parser.add_argument("--jobs", default="")
    args = parser.parse_args()
    folder = os.path.abspath(args.folder)
    write_small_inputs(folder)
    wanted = [name for name in args.jobs.split(",") if name]
    programs = [[os.path.abspath(w) if os.path.exists(w) else w for w in shlex.split(p)] for p in args.programs]
    for place, program in enumerate(programs, 1):
        print(f"program {place}: {shlex.join(program)}")
    for job, name, words in WRITTEN:
        if not wanted or job in wanted:
            write_file(programs[0], folder, name, words)
    print(f"{'job':14} {'program':18} {'seconds':>8} {'per s':>9} {'cpu s':>8} {'ratio':>6} {'per cpu s':>10} "
          f"{'peak MB':>8} {'B/edge':>7} {'ratio':>6}  answer")
    for name, counted, words in [job for job in JOBS + LARGE if job[0] in wanted] if wanted else JOBS:
        count = lines_of(os.path.join(folder, counted))
        able = [(place, program) for place, program in enumerate(programs, 1) if not is_live(program) or words[0] == "follow"]
        measured = measure([program for _, program in able], words, folder, args.repeat)
        first = None
        for (place, program), (seconds, cpu, peak, status, digest) in zip(able, measured):
            first = first or (cpu, peak, digest)
            answer = ("" if status == 0 else f"status {status} ") + ("same" if digest == first[2] else "another answer")
            label = f"{place} {os.path.basename(program[-1])[-16:]}"
            each = f"{peak / count:.0f}" if name.startswith("load") else ""
            print(f"{name:14} {label:18} {seconds:8.2f} {count / max(seconds, 1e-9):9.0f} {cpu:8.2f} "
                  f"{cpu / max(first[0], 1e-9):6.2f} {count / max(cpu, 1e-9):10.0f} {peak / 1e6:8.1f} {each:>7} "
                  f"{peak / first[1]:6.2f}  {answer}", flush=True)


if __name__ == "__main__":
    main()
