"""What was read for a network, what was left out and why, and what to look at."""
from __future__ import annotations

from collections import Counter
from dataclasses import dataclass, field
from typing import Any, Iterable

from .errors import shown

EXAMPLES = 5


@dataclass
class LeftOut:
    """Things of the source that the network does not have, for one reason, with the names of some."""

    what: str
    reason: str
    count: int
    examples: list[str] = field(default_factory=list)

    def __str__(self) -> str:
        names = ", ".join(shown(name, 30) for name in self.examples)
        more = ", .." if self.count > len(self.examples) else ""
        return f"{self.count} {self.what}: {self.reason}" + (f" ({names}{more})" if names else "")


@dataclass
class NetworkReport:
    """The report of a network: `str(report)` is its text, `to_dict()` the same for the side file.

    `left_out` is what the source has and the network lacks, `notes` is what to look at, `used` and `unused` count the turn
    restrictions that the network keeps, and those that it does not keep by their reasons.
    """

    source: dict[str, Any] = field(default_factory=dict)
    projection: str = ""
    scale_error: float = 0.0
    size: dict[str, int] = field(default_factory=dict)
    left_out: list[LeftOut] = field(default_factory=list)
    notes: list[str] = field(default_factory=list)
    used: int = 0
    unused: Counter[str] = field(default_factory=Counter)

    def leave_out(self, what: str, reason: str, names: Iterable[object]) -> None:
        """Counts what is left out for a reason, and keeps the names of the first few."""
        texts = [str(name) for name in names]
        if texts:
            self.left_out.append(LeftOut(what, reason, len(texts), texts[:EXAMPLES]))

    def note(self, text: str) -> None:
        """Adds something to look at, once."""
        if text not in self.notes:
            self.notes.append(text)

    def __str__(self) -> str:
        lines = [f"source: {self.source['path']}"] if self.source.get("path") else []
        error = f", lengths are wrong by at most {100 * self.scale_error:.2g} %" if self.scale_error == self.scale_error else ""
        lines += [f"projection: {self.projection}{error}"]
        lines += ["network: " + ", ".join(f"{number} {what}" for what, number in self.size.items())]
        if self.used or self.unused:
            lines += [f"turn restrictions: {self.used} kept, {sum(self.unused.values())} not kept"]
            lines += [f"  {count} not kept: {reason}" for reason, count in sorted(self.unused.items())]
        lines += [f"left out: {item}" for item in self.left_out]
        lines += [f"note: {note}" for note in self.notes]
        return "\n".join(lines)

    def to_dict(self) -> dict[str, Any]:
        return {
            "left_out": [{"what": item.what, "reason": item.reason, "count": item.count, "examples": item.examples}
                         for item in self.left_out],
            "notes": self.notes,
            "restrictions": {"kept": self.used, "not_kept": dict(sorted(self.unused.items()))},
        }

    @classmethod
    def from_dict(cls, content: dict[str, Any]) -> NetworkReport:
        """A report as `to_dict` gives it; what is missing or of another type counts as nothing."""
        restrictions = content.get("restrictions") or {}
        items = [item for item in content.get("left_out") or [] if isinstance(item, dict)]
        left_out = [LeftOut(str(item.get("what", "")), str(item.get("reason", "")), int(item.get("count", 0)),
                            [str(name) for name in item.get("examples", [])]) for item in items]
        notes = [str(note) for note in content.get("notes") or []]
        return cls(left_out=left_out, notes=notes, used=int(restrictions.get("kept", 0)),
                   unused=Counter(restrictions.get("not_kept") or {}))
