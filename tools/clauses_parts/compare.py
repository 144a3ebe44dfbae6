"""Which public clauses and definitions differ between two revisions of a repository."""
from __future__ import annotations

import io
import subprocess
import tarfile
import tempfile
from collections import Counter
from pathlib import Path

from .repository import Repository


def at_revision(top: Path, revision: str) -> Repository:
    done = subprocess.run(["git", "-C", str(top), "archive", revision, "crates.txt", "crates"], capture_output=True, check=False)
    if done.returncode:
        raise SystemExit(f"tools/clauses: {done.stderr.decode(errors='replace').strip()}")
    with tempfile.TemporaryDirectory(prefix="fmm-clauses-") as room:
        with tarfile.open(fileobj=io.BytesIO(done.stdout)) as archive:
            wanted = [it for it in archive.getmembers() if it.name.endswith((".rt", ".antt", ".txt")) or it.isdir()]
            archive.extractall(room, members=wanted)
        return Repository(Path(room))


def differences(old: Repository, new: Repository) -> list[str]:
    """A line for each call, clause and definition that differs. What only moved to another crate does not."""
    return _clauses(old, new) + _definitions(old, new)


def _clauses(old: Repository, new: Repository) -> list[str]:
    before, after = _calls(old), _calls(new)
    lines = []
    for name in sorted(set(before) | set(after)):
        gone, come = _only(before.get(name, []), after.get(name, [])), _only(after.get(name, []), before.get(name, []))
        if name not in after:
            lines.append(f"gone: {name}")
        elif name not in before:
            lines.append(f"new: {name}")
        lines += [f"- {name}: {it}" for it in gone] + [f"+ {name}: {it}" for it in come]
    return lines


def _calls(repository: Repository) -> dict[str, list[str]]:
    """The clauses of each call, by its name without its crate. Calls of one name share a list."""
    found: dict[str, list[str]] = {}
    for crate in repository.crates:
        for function in crate.functions + crate.members:
            name = f"{function.call} of {function.trait}" if function.trait else function.call
            clauses = found.setdefault(name, [])
            clauses += [f"{it.kind} {it.name} {{ {it.text} }}".replace("  ", " ") for it in function.clauses]
    return found


def _definitions(old: Repository, new: Repository) -> list[str]:
    before, after = _texts(old), _texts(new)
    lines = []
    for name in sorted(set(before) | set(after)):
        gone, come = _only(before.get(name, []), after.get(name, [])), _only(after.get(name, []), before.get(name, []))
        lines += [f"- definition {it}" for it in gone] + [f"+ definition {it}" for it in come]
    return lines


def _texts(repository: Repository) -> dict[str, list[str]]:
    """The texts of the definitions that public clauses rest on, by name."""
    found: dict[str, list[str]] = {}
    for path, definition in repository.definitions.by_path.items():
        if path in repository.believed:
            found.setdefault(definition.name, []).append(definition.text)
    return found


def _only(these: list[str], those: list[str]) -> list[str]:
    """What is in the first list more often than in the second."""
    return list((Counter(these) - Counter(those)).elements())
