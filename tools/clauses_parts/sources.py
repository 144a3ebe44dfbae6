"""The public functions of the crates with their clauses, read from src/."""
from __future__ import annotations

import re
from dataclasses import dataclass, field
from pathlib import Path

from .scanning import blanked, end_of_block, end_of_clause, in_one_line

_ITEM = re.compile(
    r"(?P<pub>pub(?P<within>\([^)]*\))?\s+)?(?:unsafe\s+|const\s+(?=fn))?"
    r"(?P<kind>fn|trait|impl|mod|struct|enum|ghost|use|type|const|static|macro_rules!)\b")
_CLAUSE = re.compile(r"(requires|ensures)(\*?)\s*([\w-]*)\s*(?=\{)")
_IMPORT = re.compile(r"ghost use ([\w.]+)\.\{([^}]*)\};|ghost use ([\w.]+)\.([^\s.{};]+);")


@dataclass(frozen=True)
class Clause:
    """One `requires` or `ensures`; its text is in one line."""

    kind: str
    name: str
    text: str


@dataclass(frozen=True)
class Function:
    """A function that other crates can call, or a ghost member of a trait. `owner` is its type or trait, or empty."""

    crate: str
    file: str
    owner: str
    name: str
    docs: str
    clauses: tuple[Clause, ...]
    law: bool
    trait: str
    scope: dict[str, str] = field(hash=False, compare=False)

    @property
    def call(self) -> str:
        return f"{self.owner}::{self.name}" if self.owner else self.name


@dataclass
class Crate:
    """A crate: its public functions, and the ghost members and facts that its public traits and types declare."""

    name: str
    functions: list[Function]
    members: list[Function]


@dataclass
class _Place:
    """Where an item stands."""

    crate: str
    file: str
    scope: dict[str, str]
    exported: frozenset[str]
    whole: bool
    owner: str = ""
    trait: str = ""
    declares: bool = False


def crates_in_order(top: Path) -> list[str]:
    """The crates of crates.txt, in its order."""
    lines = (top / "crates.txt").read_text(encoding="utf-8").splitlines()
    return [line.partition(":")[0] for line in lines if ":" in line and not line.startswith("#")]


def read_crates(top: Path) -> list[Crate]:
    return [_read_crate(top, name) for name in crates_in_order(top)]


def _read_crate(top: Path, name: str) -> Crate:
    crate = Crate(name, [], [])
    folder = top / "crates" / name / "src"
    root = folder / "lib.rt"
    if not root.exists():
        return crate
    modules, names = _exports(root.read_text(encoding="utf-8"))
    files = sorted(folder.rglob("*.rt"), key=lambda it: (it != root, it.relative_to(folder).as_posix()))
    for path in files:
        module = path.relative_to(folder).with_suffix("").as_posix().split("/")[0]
        text = blanked(path.read_text(encoding="utf-8"))
        place = _Place(name, path.relative_to(top).as_posix(), _imports(text, False), names, path == root or module in modules)
        _read_items(text, place, crate)
    return crate


def _exports(text: str) -> tuple[set[str], frozenset[str]]:
    """The public modules of a root file, and the names that it hands on from private ones."""
    modules = set(re.findall(r"^pub mod (\w+);", text, re.M))
    names: set[str] = set()
    for listed, single in re.findall(r"^pub use [\w:]+::(?:\{([^}]*)\}|(\w+));", text, re.M):
        names.update(it.split()[-1] for it in (listed or single).split(",") if it.strip())
    return modules, frozenset(names)


def _imports(text: str, inner: bool) -> dict[str, str]:
    """Where the names of definitions come from: those imported at the head of a file, or inside a block."""
    found = {}
    for match in _IMPORT.finditer(text):
        starts_line = match.start() == 0 or text[match.start() - 1] == "\n"
        if starts_line is inner:
            continue
        path, names = (match[1], match[2]) if match[1] else (match[3], match[4])
        for name in filter(None, (it.strip() for it in names.split(","))):
            origin, _, renamed = name.partition(" as ")
            found[(renamed or origin).strip()] = f"{path}.{origin.strip()}"
    return found


def _read_items(text: str, place: _Place, crate: Crate) -> None:
    """Adds the functions among the items of a file, a trait or an impl."""
    at, docs = 0, ""
    while at < len(text):
        line = re.compile(r"[ \t]*///[ ]?([^\n]*)\n").match(text, at)
        if line:
            docs, at = f"{docs}{line[1]}\n", line.end()
            continue
        item = _ITEM.match(text, at)
        if not item or (at and (text[at - 1].isalnum() or text[at - 1] == "_")):
            at += 1
            continue
        at = _read_item(text, item, docs, place, crate)
        docs = ""


def _read_item(text: str, item: re.Match[str], docs: str, place: _Place, crate: Crate) -> int:
    """Adds what one item has, and returns where it ends."""
    kind, public = item["kind"], bool(item["pub"]) and not item["within"]
    if kind == "fn":
        return _read_function(text, item, docs, public, place, crate)
    if kind == "ghost" and place.owner:
        return _read_member(text, item, docs, place, crate)
    opening = re.compile(r"[;{]").search(text, item.end())
    if not opening:
        return len(text)
    if opening[0] == ";":
        return opening.end()
    end = end_of_block(text, opening.start())
    head, body = in_one_line(text[item.end():opening.start()]), text[opening.end():end - 1]
    scope = {**place.scope, **_imports(body, True)}
    if kind == "trait":
        name = re.match(r"\w+", head)
        if name and public and (place.whole or name[0] in place.exported):
            inner = _Place(place.crate, place.file, scope, place.exported, True, name[0], "", True)
            _read_items(body, inner, crate)
    elif kind == "impl":
        owner, trait = _subject(head)
        inner = _Place(place.crate, place.file, scope, place.exported, place.whole, owner, trait)
        if place.whole or owner in place.exported:
            _read_items(body, inner, crate)
    elif kind == "struct":
        _read_facts(body, head, public, place, scope, crate)
    elif kind in ("use", "ghost"):
        return text.index(";", item.end()) + 1
    return end


def _subject(head: str) -> tuple[str, str]:
    """The type of an impl, and its trait or an empty text."""
    head = head.partition(" where ")[0]
    head = re.sub(r"^<", "<", head)
    if head.startswith("<"):
        depth = 0
        for at, letter in enumerate(head):
            depth += (letter == "<") - (letter == ">" and head[at - 1] != "-")
            if depth == 0:
                head = head[at + 1:].strip()
                break
    trait, _, owner = head.rpartition(" for ")
    names = [re.sub(r"<.*", "", it).strip("& ").split("::")[-1] for it in (owner, trait)]
    return names[0], names[1]


def _read_function(text: str, item: re.Match[str], docs: str, public: bool, place: _Place, crate: Crate) -> int:
    name = re.compile(r"\s*(\w+)").match(text, item.end())
    assert name, place.file
    at, end = _end_of_signature(text, name.end()), 0
    clauses: list[Clause] = []
    while not end:
        clause = _CLAUSE.match(text, at)
        if clause:
            stop = end_of_clause(text, clause.end())
            clauses.append(Clause(clause[1] + clause[2], clause[3], in_one_line(text[clause.end() + 1:stop - 1])))
            at = stop
        elif text[at] == "{":
            end = end_of_block(text, at)
        elif text[at] == ";":
            end = at + 1
        else:
            at += 1
    seen = place.declares or bool(place.trait) or public and (place.whole or bool(place.owner) or name[1] in place.exported)
    if seen:
        law = not place.owner and bool(re.search(r"\{\s*\}$", text[at:end])) and text[name.end():].startswith("()")
        crate.functions.append(Function(place.crate, place.file, place.owner, name[1], _first_sentence(docs), tuple(clauses),
                                        law, place.trait, place.scope))
    return end


def _end_of_signature(text: str, at: int) -> int:
    """Where the clauses, the body or the semicolon of a function begins."""
    depth = 0
    while at < len(text):
        if depth == 0 and (text[at] in "{;" or _CLAUSE.match(text, at) and text[at - 1].isspace()):
            return at
        depth += (text[at] in "([") - (text[at] in ")]")
        at += 1
    raise ValueError("a signature has no end")


def _read_member(text: str, item: re.Match[str], docs: str, place: _Place, crate: Crate) -> int:
    """Adds a ghost member that a public trait declares, or the value as which a public type is seen."""
    if re.compile(r"\s+use\b").match(text, item.end()):
        return text.index(";", item.end()) + 1
    name = re.compile(r"\s+(\w+)").match(text, item.end())
    assert name, place.file
    opening = text.index("{", name.end())
    end = end_of_clause(text, opening)
    if place.declares or name[1] == "Value":
        clause = Clause("ghost", name[1], in_one_line(text[opening + 1:end - 1]))
        crate.members.append(Function(place.crate, place.file, place.owner, name[1], _first_sentence(docs), (clause,), False,
                                      place.trait, place.scope))
    return end


def _read_facts(body: str, head: str, public: bool, place: _Place, scope: dict[str, str], crate: Crate) -> None:
    """Adds the facts that each value of a public struct has, in ghost fields."""
    name = re.match(r"\w+", head)
    if not name or not public or not (place.whole or name[0] in place.exported):
        return
    for fact in re.finditer(r"pub ghost (\w+):\s*(?=\{)", body):
        clause = Clause("ghost", fact[1], in_one_line(body[fact.end() + 1:end_of_clause(body, fact.end()) - 1]))
        crate.members.append(Function(place.crate, place.file, name[0], fact[1], "A fact of each value.", (clause,), False, "",
                                      scope))


def _first_sentence(docs: str) -> str:
    """The first sentence of the docs, without the code blocks and lists after it."""
    paragraph = in_one_line(docs.strip().split("\n\n")[0])
    sentence = re.match(r".*?\.(?=\s|$)", paragraph)
    found = sentence[0] if sentence else paragraph
    return re.sub(r"\[(`[^`]*`|[^\]]*)\](?:\([^)]*\))?", r"\1", found).rstrip(":")
