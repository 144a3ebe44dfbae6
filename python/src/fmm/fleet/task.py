"""The script of a task: `python3 task.py FOLDER GROUP`. It finds the package by its own place, so it needs no PYTHONPATH."""
import sys
from pathlib import Path

if __name__ == "__main__":
    sys.path[0] = str(Path(__file__).resolve().parents[2])
    from fmm.fleet.tasks import run_task
    sys.exit(run_task(*sys.argv[1:3]) if len(sys.argv) == 3 else 2)
