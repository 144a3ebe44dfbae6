"""The types of the package."""
from __future__ import annotations

import hashlib
import os
import shutil
import subprocess
import tempfile
from pathlib import Path

import pytest

CACHE = Path(os.environ.get("XDG_CACHE_HOME") or Path.home() / ".cache", "fmm-tests", "types")
KEPT = 8  # checkouts


def cache_of(top: Path) -> Path:
    """Where mypy keeps what it knows of a checkout, since checkouts that share it spoil it. A new checkout begins with
    that of the checkout that was checked last, since the first check takes ten times as long as the next one."""
    CACHE.mkdir(parents=True, exist_ok=True)
    folder = CACHE / hashlib.sha256(os.fsencode(top)).hexdigest()[:16]
    known = sorted(CACHE.glob("[0-9a-f]*"), key=lambda path: path.stat().st_mtime, reverse=True)
    if not folder.exists() and known:
        with tempfile.TemporaryDirectory(dir=CACHE, prefix="part") as part:
            shutil.copytree(known[0], Path(part, "copy"))
            Path(part, "copy").rename(folder)
    for old in known[KEPT:]:
        shutil.rmtree(old, ignore_errors=True)
    folder.mkdir(exist_ok=True)
    os.utime(folder)
    return folder


def test_types(top: Path) -> None:
    if not shutil.which("mypy"):
        pytest.skip("the types of the package, since there is no mypy")
    done = subprocess.run(["mypy", "--cache-dir", str(cache_of(top))], cwd=top / "python", capture_output=True, text=True)
    assert done.returncode == 0, done.stdout + done.stderr
