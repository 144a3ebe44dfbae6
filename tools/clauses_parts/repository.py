"""A repository at one moment: its public functions, its definitions, and which of these the clauses cite."""
from __future__ import annotations

from dataclasses import dataclass
from pathlib import Path

from .definitions import Definition, Definitions
from .sources import Clause, Crate, Function, read_crates


@dataclass(frozen=True)
class Size:
    """How many definitions there are, in how many files, and their lines with comments."""

    definitions: int
    files: int
    lines: int


class Repository:
    """The crates of a folder with their definitions."""

    def __init__(self, top: Path) -> None:
        self.crates: list[Crate] = read_crates(top)
        self.definitions = Definitions(top, [it.name for it in self.crates])
        self.believed = set(self.definitions.reached(self._roots()))

    def functions(self) -> list[Function]:
        return [it for crate in self.crates for it in crate.functions]

    def cites(self, function: Function, clause: Clause) -> list[str]:
        """The paths of the definitions that a clause names."""
        return self.definitions.named_in(clause.text, function.scope)

    def _roots(self) -> list[str]:
        found: dict[str, None] = {}
        for crate in self.crates:
            for function in crate.functions + crate.members:
                for clause in function.clauses:
                    found.update(dict.fromkeys(self.cites(function, clause)))
        return list(found)

    def of_crate(self, name: str) -> list[Definition]:
        return [it for it in self.definitions.by_path.values() if it.crate == name]

    def named(self, name: str) -> list[str]:
        """The definitions with this name, or those that the clauses of the public functions with this name cite."""
        paths = [path for path, it in self.definitions.by_path.items() if it.name == name]
        for function in self.functions():
            if name in (function.name, function.call):
                paths += [path for clause in function.clauses for path in self.cites(function, clause)]
        return list(dict.fromkeys(paths))

    def plans(self) -> list[str]:
        """The plan of each command, as `work_plan` and what stands beside it list them."""
        found: dict[str, None] = {}
        for path in self.named("work_plan"):
            module = self.definitions.by_path[path].module
            rows = [it for it in self.definitions.reached([path]) if self.definitions.by_path[it].module == module]
            for row in rows:
                cited = [it for it in self.definitions.cited_by(row) if it not in rows]
                found.update(dict.fromkeys(it for it in cited if self.definitions.by_path[it].name.endswith("_plan")))
        return list(found)

    def size(self, paths: list[str]) -> Size:
        listed = [self.definitions.by_path[it] for it in paths]
        return Size(len(listed), len({it.file for it in listed}), sum(len(it.lines) for it in listed))

    def shared_names(self) -> dict[str, list[str]]:
        """The names that definitions of two or more crates have, with these crates."""
        crates: dict[str, dict[str, None]] = {}
        for definition in self.definitions.by_path.values():
            crates.setdefault(definition.name, {})[definition.crate] = None
        return {name: list(it) for name, it in sorted(crates.items()) if len(it) > 1}
