"""Reads turn restrictions from an OpenStreetMap file."""
from __future__ import annotations

from typing import Any, NamedTuple, Optional

import osmium
from osmium.osm import osm_entity_bits

from .reading import Source

TURNS = frozenset({
    "no_left_turn", "no_right_turn", "no_straight_on", "no_u_turn", "no_entry", "no_exit",
    "only_left_turn", "only_right_turn", "only_straight_on", "only_u_turn",
})


class Turn(NamedTuple):
    """A relation of the type restriction. `fault` says why it cannot be used, or is empty."""

    id: int
    kind: str
    origins: tuple[int, ...]
    via: int
    targets: tuple[int, ...]
    fault: str


class TurnHandler(osmium.SimpleHandler):
    """Collects turn restrictions."""

    def __init__(self, vehicles: tuple[str, ...], deleted: set[int]) -> None:
        super().__init__()
        self.vehicles, self.deleted = vehicles, deleted
        self.turns: list[Turn] = []

    def relation(self, relation: Any) -> None:
        if relation.tags.get("type") == "restriction" and not (relation.deleted or relation.id in self.deleted):
            turn = self.turn_of(relation.id, {tag.k: tag.v for tag in relation.tags},
                                [(member.role, member.type, member.ref) for member in relation.members])
            if turn:
                self.turns.append(turn)

    def turn_of(self, number: int, tags: dict[str, str], members: list[tuple[str, str, int]]) -> Optional[Turn]:
        """The restriction, if it is for these vehicles."""
        keys = ["restriction", *(f"restriction:{vehicle}" for vehicle in self.vehicles)]
        found = [tags[key] for key in reversed(keys) if key in tags]
        conditional = any(f"{key}:conditional" in tags for key in keys) or "day_on" in tags or "hour_on" in tags
        excepted = {word.strip() for word in tags.get("except", "").split(";")} & set(self.vehicles)
        if excepted or not (found or conditional):
            return None
        roles = {role: [(kind, ref) for r, kind, ref in members if r == role] for role in ("from", "via", "to")}
        ways = {role: tuple(ref for kind, ref in roles[role] if kind == "w") for role in ("from", "to")}
        via = [ref for kind, ref in roles["via"] if kind == "n"]
        kind, fault = found[0] if found else "", ""
        if conditional:
            fault = "holds at times only"
        elif kind not in TURNS:
            fault = "unknown kind of restriction"
        elif any(kind == "w" for kind, _ in roles["via"]):
            fault = "goes over a via way"
        elif len(via) != 1 or not ways["from"] or not ways["to"]:
            fault = "lacks a member"
        return Turn(number, kind, ways["from"], via[0] if via else 0, ways["to"], fault)


def read_turns(source: Source, vehicles: tuple[str, ...]) -> list[Turn]:
    """The turn restrictions for some vehicles."""
    handler = TurnHandler(vehicles, source.deleted.relation)
    source.apply(osm_entity_bits.RELATION, handler)
    return handler.turns
