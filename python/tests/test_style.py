"""The style of the package."""
from __future__ import annotations

import hashlib
import os
import shutil
import subprocess
from pathlib import Path

import pytest

CACHE = Path(os.environ.get("XDG_CACHE_HOME") or Path.home() / ".cache", "fmm-tests", "style")
FLAKE8 = ("flake8", "--max-line-length", "130")


def test_style(top: Path) -> None:
    """A file whose bytes were found good once is not looked at again, as checkouts share what is kept."""
    if not shutil.which("flake8"):
        pytest.skip("the style of the package, since there is no flake8")
    version = subprocess.run(["flake8", "--version"], capture_output=True, check=True).stdout + repr(FLAKE8).encode()
    files = [path for folder in ("src", "tests") for path in (top / "python" / folder).rglob("*.py")]
    keys = {path: hashlib.sha256(version + path.name.encode() + b"\n" + path.read_bytes()).hexdigest() for path in files}
    good = set(CACHE.read_text().split()) if CACHE.exists() else set()
    new = [str(path) for path in files if keys[path] not in good]
    if new:
        done = subprocess.run([*FLAKE8, *new], cwd=top / "python", capture_output=True, text=True)
        assert done.returncode == 0, done.stdout + done.stderr
    CACHE.parent.mkdir(parents=True, exist_ok=True)
    whole = CACHE.with_name(f"style.{os.getpid()}")
    whole.write_text("\n".join(sorted(good | set(keys.values()))) + "\n")
    whole.replace(CACHE)
