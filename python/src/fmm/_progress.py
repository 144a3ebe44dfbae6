"""Progress of long work: a bar on a terminal, or lines for a program that shows a bar of its own."""
from __future__ import annotations

import os
import sys
from typing import Any

from tqdm import tqdm

LINES = "FMM_PROGRESS"  # with the value `lines`, in the environment


class Lines(tqdm):
    """Writes `progress: WHAT PERCENT` to standard error, without the percentage if the end is not known."""

    def display(self, *words: Any, **more: Any) -> None:
        share = f" {100 * min(self.n / self.total, 1):.0f}" if self.total else ""
        print(f"progress: {self.desc.rstrip(': ')}{share}", file=sys.stderr, flush=True)


def bar(**words: Any) -> tqdm:
    """A bar of tqdm, which is disabled where standard error is no terminal and nobody asks for lines."""
    if os.environ.get(LINES) == "lines":
        return Lines(**{**words, "delay": 0, "leave": True, "mininterval": 0.2, "disable": False})
    return tqdm(**{"disable": None, "delay": 1, **words})
