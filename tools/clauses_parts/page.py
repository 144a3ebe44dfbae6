"""The page of clauses, docs/CLAUSES.md."""
from __future__ import annotations

from .repository import Repository, Size
from .sources import Clause, Crate, Function

LONGEST = 64

HEAD = """# Clauses by crate

`tools/clauses --write` makes this page from `crates.txt` and the sources, and `tests/docs` checks that it is current.
[PROOFS.md](PROOFS.md) explains how to read a clause, and says what is only tested, not claimed or trusted.

A row has a call that other crates can make, its clauses, and the first sentence of its docs. A clause is shown by its name and
the definitions of this repository that it cites. A short clause that cites none is shown as it is written. A method of a trait is
listed for a type only with clauses that the trait does not have.

- `tools/clauses --read NAME` lists the definitions that you have to believe for a function, a law or another definition, in
  reading order, with their files.
- `tools/clauses --compare REVISION` lists the clauses and definitions that differ from those of another revision.

## Definitions to believe

The definitions of `specs/` say what the clauses mean. Those of `specs/inside/` serve the code and its proofs, and no public
clause rests on them. The column "for the code" counts the definitions of `specs/` on which no public clause rests either.

"""

COUNTS = ["| crate | calls | laws | in `specs/` | for the code | in `specs/inside/` |", "|---|---|---|---|---|---|"]
COMMANDS = ["What has to be believed for the plan of each command, together with the promise of a run:", "",
            "| plan | definitions | files | lines |", "|---|---|---|---|"]
CALLS = ["| call | clauses | what it does |", "|---|---|---|"]


def page(repository: Repository) -> str:
    parts = [HEAD, _counts(repository), "\n", _commands(repository)]
    parts += [_crate(repository, crate) for crate in repository.crates if crate.functions]
    return "".join(parts)


def _counts(repository: Repository) -> str:
    lines = list(COUNTS)
    total = [0] * 5
    for crate in repository.crates:
        listed = repository.of_crate(crate.name)
        outer = [it for it in listed if not it.inside]
        laws = sum(it.law for it in crate.functions)
        row = [len(crate.functions) - laws, laws, len(outer), sum(it.path not in repository.believed for it in outer),
               len(listed) - len(outer)]
        total = [a + b for a, b in zip(total, row)]
        if any(row):
            lines.append(f"| `{crate.name}` | " + " | ".join(f"{it:,}" for it in row) + " |")
    lines.append("| all | " + " | ".join(f"{it:,}" for it in total) + " |")
    return "".join(it + "\n" for it in lines)


def _commands(repository: Repository) -> str:
    lines = list(COMMANDS)
    run = repository.named("Promises")
    for path in repository.plans():
        name = repository.definitions.by_path[path].name
        lines.append(_size(f"`{name}`", repository.size(repository.definitions.reached([*run, path]))))
    lines.append(_size("all of `run`", repository.size(repository.definitions.reached(repository.named("run")))))
    return "".join(it + "\n" for it in lines)


def _size(name: str, size: Size) -> str:
    return f"| {name} | {size.definitions:,} | {size.files:,} | {size.lines:,} |"


def _crate(repository: Repository, crate: Crate) -> str:
    declared = {it.call: it.clauses for it in repository.functions() if not it.trait}
    rows = []
    for function in crate.functions:
        own = declared.get(f"{function.trait}::{function.name}", ()) if function.trait else ()
        names = {(it.kind, it.name) for it in own}
        clauses = [it for it in function.clauses if not function.trait or own and (it.kind, it.name) not in names]
        if clauses or not function.trait:
            rows.append(_row(repository, function, clauses))
    rows += [_row(repository, it, list(it.clauses)) for it in crate.members if not it.trait]
    return "".join(line + "\n" for line in ["", f"## {crate.name}", "", *CALLS, *rows])


def _row(repository: Repository, function: Function, clauses: list[Clause]) -> str:
    kind = "law " if function.law else ""
    trait = f" of `{function.trait}`" if function.trait else ""
    shown = "; ".join(_clause(repository, function, it) for it in clauses)
    return f"| {kind}`{function.call}`{trait} | {shown} | {function.docs.replace('|', chr(92) + '|')} |"


def _clause(repository: Repository, function: Function, clause: Clause) -> str:
    names = dict.fromkeys(repository.definitions.by_path[it].name for it in repository.cites(function, clause))
    head = {"requires": "requires ", "ghost": "ghost "}.get(clause.kind, "")
    name = f"`{clause.name}`" if clause.name else ""
    cited = ", ".join(f"`{it}`" for it in names)
    if not cited and len(clause.text) <= LONGEST:
        cited = f"`{clause.text}`".replace("|", "\\|")
    return head + (": ".join(it for it in (name, cited) if it) or "its text")
