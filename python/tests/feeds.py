"""Runs `fmm feed` for the tests."""
from __future__ import annotations

import os
import sys
from pathlib import Path
from typing import Any

import forks

import fmm.commands.feed  # noqa: F401  so that a fork has all modules
import fmm.feed.reading  # noqa: F401

SOURCES = Path(__file__).parents[1] / "src"
WORDS = ["feed", "--crs", "metres"]
FEED = [sys.executable, "-m", "fmm", *WORDS]


def environment() -> dict[str, str]:
    return {**os.environ, "PYTHONPATH": str(SOURCES)}


def feed(text: str, *words: str) -> forks.Done:
    """Runs a feed over a text. Its state is state.db unless the words name another."""
    state = () if "--state" in words else ("--state", "state.db")
    return forks.run(*WORDS, *state, *words, given=text)


def start(*words: str, **more: Any) -> forks.Process:
    """Starts a feed in a fork, with the state state.db."""
    return forks.Process([*WORDS, "--state", "state.db", *words], **more)


def rows(text: str) -> list[tuple[int, ...]]:
    """The rows of a trace file."""
    header, *lines = text.splitlines()
    assert header == "trace,x,y,time"
    return [tuple(map(int, line.split(","))) for line in lines]
