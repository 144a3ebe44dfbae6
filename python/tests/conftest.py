"""What the tests of the package share."""
from __future__ import annotations

import sys
from pathlib import Path

import profiles  # noqa: F401  sets the profile of hypothesis
import pytest
from browsers import browser, chromium  # noqa: F401  fixtures
from databases import cluster, server  # noqa: F401  fixtures

TOP = Path(__file__).resolve().parents[2]
sys.dont_write_bytecode = sys.pycache_prefix is None


@pytest.fixture
def top() -> Path:
    """The root of the repository."""
    return TOP


@pytest.fixture
def small() -> Path:
    """The small map and tracks that the pages use."""
    return TOP / "recipes" / "small"


@pytest.fixture(autouse=True)
def no_bytecode(monkeypatch: pytest.MonkeyPatch) -> None:
    """Programs that a test starts leave no __pycache__ in the sources."""
    monkeypatch.setenv("PYTHONDONTWRITEBYTECODE", "1")
