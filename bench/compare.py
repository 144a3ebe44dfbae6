#!/usr/bin/env python3
"""compare.py FOLDER YARDSTICK PROGRAM [--jobs NAME,..] [--workers N,..]: compares the answers of two programs with FMM's command
line on the inputs that make_inputs.py wrote to FOLDER.

The jobs are those of measure.py, except those of the large map, and `town`. YARDSTICK does each job with one worker, and PROGRAM
with 1, 2, 7 and 64. Each line is a job: `same` if output, error output and exit status are those of the yardstick for each number
of workers, or `differs` with the numbers for which they are not. The exit status is 1 if a job differs.
"""
import argparse
import os
import shlex
import sys

from measure import JOBS, WRITTEN, run, write_file, write_small_inputs

TOWN = ("town", ["town", "100", "2000", "1"])


def without_workers(words):
    """The words of a command without the option `--workers`."""
    place = words.index("--workers") if "--workers" in words else len(words)
    return words[:place] + words[place + 2:]


def text_jobs():
    """The jobs that differ by more than their workers, by name."""
    jobs = {}
    for name, words in [(name, without_workers(words)) for name, _, words in JOBS] + [TOWN]:
        if words not in jobs.values():
            jobs[name] = words
    return jobs


def differing(yardstick, program, words, folder, workers):
    """The yardstick's exit status, and the numbers of workers with which the program's answer is another one."""
    *_, status, answer = run([*yardstick, *words, "--workers", "1"], folder)
    return status, [count for count in workers if run([*program, *words, "--workers", count], folder)[-1] != answer]


def main():
    parser = argparse.ArgumentParser()
    parser.add_argument("folder")
    parser.add_argument("yardstick")
    parser.add_argument("program")
    parser.add_argument("--jobs", default="")
    parser.add_argument("--workers", default="1,2,7,64")
    args = parser.parse_args()
    folder = os.path.abspath(args.folder)
    yardstick, program = ([os.path.abspath(w) if os.path.exists(w) else w for w in shlex.split(p)]
                          for p in (args.yardstick, args.program))
    jobs = text_jobs()
    wanted = [name for name in args.jobs.split(",") if name] or list(jobs)
    workers = [count for count in args.workers.split(",") if count]
    write_small_inputs(folder)
    for job, name, words in WRITTEN:
        if job in wanted:
            write_file(yardstick, folder, name, words)
    differ = 0
    for name in wanted:
        status, others = differing(yardstick, program, jobs[name], folder, workers)
        differ += bool(others)
        said = f"differs with --workers {', '.join(others)}" if others else "same"
        print(f"{name:14} {said}" + (f", status {status}" if status else ""), flush=True)
    sys.exit(1 if differ else 0)


if __name__ == "__main__":
    main()
