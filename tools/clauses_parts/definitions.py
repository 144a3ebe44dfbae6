"""The definitions of the crates, read from specs/, and which of them others cite."""
from __future__ import annotations

import re
from collections.abc import Iterable
from dataclasses import dataclass, field
from pathlib import Path

from .scanning import in_one_line

_USE = re.compile(r"^(?:pub )?use ([\w.]+)\.\{([^}]*)\}", re.M)
_USE_ONE = re.compile(r"^(?:pub )?use ([\w.]+)\.([^\s.{}]+)(?: as (\S+))?$", re.M)
_KEYWORDS = {"abbrev", "pub", "record", "data", "unfoldable", "opaque"}
_NO_ITEM = ("--", "use ", "pub use ", "mod ", "pub mod ", "module ", "infix")
# A word of a definition. One after a dot is a field, except after the short name of a module.
_WORD = re.compile(r"(?<![\w'.-])((?:[a-z]\w*\.)?[^\W\d][\w'-]*)(?![\w'-]|\s=\s)")


@dataclass
class Definition:
    """A definition: the module it stands in, its name, its text with its comment, and its file."""

    crate: str
    module: str
    name: str
    file: str
    lines: list[str] = field(default_factory=list)

    @property
    def path(self) -> str:
        return f"{self.module}.{self.name}"

    @property
    def inside(self) -> bool:
        return "/specs/inside/" in self.file

    @property
    def text(self) -> str:
        """The definition in one line, without comments."""
        return in_one_line(" ".join(line for line in self.lines if not line.lstrip().startswith("--")))


@dataclass
class _Module:
    """What a file of definitions can name: its own names, and those that it imports, each with its full path."""

    names: dict[str, str] = field(default_factory=dict)


class Definitions:
    """All definitions of a repository."""

    def __init__(self, top: Path, crates: Iterable[str]) -> None:
        self.by_path: dict[str, Definition] = {}
        self._modules: dict[str, _Module] = {}
        self._cited: dict[str, list[str]] = {}
        self._passed_on: dict[str, str] = {}
        for crate in crates:
            for file in sorted((top / "crates" / crate / "specs").rglob("*.antt")):
                if file.name != "Lib.antt":
                    self._read(top, crate, file)

    def _read(self, top: Path, crate: str, file: Path) -> None:
        parts = file.relative_to(top / "crates" / crate).with_suffix("").parts
        path = ".".join(["Rattle", crate, *parts])
        text = file.read_text(encoding="utf-8")
        module = self._modules[path] = _Module()
        for match in _USE.finditer(text):
            for listed in filter(None, (it.strip() for it in match[2].split(","))):
                origin, _, renamed = (it.strip() for it in listed.partition(" as "))
                module.names[renamed or origin] = f"{match[1]}.{origin}"
                if match[0].startswith("pub"):
                    self._passed_on[f"{path}.{renamed or origin}"] = f"{match[1]}.{origin}"
        for match in _USE_ONE.finditer(text):
            module.names[match[3] or match[2]] = f"{match[1]}.{match[2]}"
        current: Definition | None = None
        comment: list[str] = []
        for line in text.splitlines():
            if line.startswith("--"):
                comment.append(line)
            elif not line.strip() or line.startswith(_NO_ITEM):
                comment, current = [], current if not line.strip() else None
            else:
                name = _name_of(line)
                if name:
                    current = Definition(crate, path, name, file.relative_to(top).as_posix(), comment)
                    self.by_path[current.path] = current
                    module.names[name] = current.path
                elif current and re.match(r"  (\w+) : ", line) and current.lines and " data " in f" {_head(current)}":
                    module.names[line.split()[0]] = f"{current.path}.{line.split()[0]}"
                if current:
                    current.lines.append(line)
                comment = []

    def resolve(self, path: str) -> str | None:
        """The path of the definition that has or is this name, if it is one of the repository."""
        path = self._passed_on.get(path, path)
        while path.count(".") > 2:
            if path in self.by_path:
                return path
            path = path.rpartition(".")[0]
        return None

    def named_in(self, text: str, names: dict[str, str]) -> list[str]:
        """The paths of the definitions that a text cites, in its order, where these names are known."""
        found: dict[str, None] = {}
        for match in _WORD.finditer(text):
            word = match[1]
            alias, _, rest = word.partition(".")
            named = names.get(word) or (f"{names[alias]}.{rest}" if rest and alias in names else names.get(alias))
            target = self.resolve(named) if named else None
            if target:
                found[target] = None
        for symbol, origin in names.items():
            if "◌" in symbol and origin in self.by_path and any(it in text for it in symbol.split("◌") if it):
                found[origin] = None
        return list(found)

    def cited_by(self, path: str) -> list[str]:
        if path not in self._cited:
            definition = self.by_path[path]
            self._cited[path] = self.named_in(definition.text, self._modules[definition.module].names)
        return self._cited[path]

    def reached(self, roots: Iterable[str], without: Iterable[str] = ()) -> list[str]:
        """The definitions that these rest on, themselves first, in reading order. Those of `without` are left out."""
        found: dict[str, None] = {}
        waiting, left_out = list(roots), set(without)
        while waiting:
            path = waiting.pop(0)
            if path not in found and path not in left_out:
                found[path] = None
                waiting = self.cited_by(path) + waiting
        return list(found)


def _head(definition: Definition) -> str:
    return next(line for line in definition.lines if not line.startswith("--"))


def _name_of(line: str) -> str | None:
    """The name that a line begins to define, or None for a line that goes on."""
    if line.startswith((" ", "}", ")")):
        return None
    words = line.split()
    rest = [it for it in words if it not in _KEYWORDS]
    if rest and (words[0] in _KEYWORDS or len(words) > 1 and words[1] == ":"):
        return rest[0]
    return None
