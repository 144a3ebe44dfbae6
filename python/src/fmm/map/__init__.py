"""The map of a match: one page that shows what was matched, why, and how sure it is.

A page needs no network. It has the positions, their places on the road, the driven edges, the network around them and, if
margins were computed, the candidates of each position with what each would have cost.
"""
from __future__ import annotations

from typing import TYPE_CHECKING, Optional

from ..errors import FmmError, PathText

if TYPE_CHECKING:
    from ..matches import Matches
    from .page import Page

MOST = 100_000  # positions of a page with candidates, unless they are asked for


def explore(matches: Matches, *, margins: Optional[bool] = None, network: Optional[PathText] = None,
            limit: Optional[float] = None, tiles: Optional[str] = None, title: str = "Match") -> Page:
    """The page of a match. See `Matches.explore`."""
    from .doubts import SMALL
    from .margins import find_margins, network_of, with_margins
    from .page import page_of
    notes, found = [], None
    wanted = len(matches.points) <= MOST if margins is None else margins
    if wanted:
        try:
            found = find_margins(matches, network_of(matches, network))
            with_margins(matches.points, found)
        except FmmError as fault:
            if margins:
                raise
            notes.append(f"no margins and no candidates: {fault}")
    else:
        notes.append("no candidates: " + ("they were not asked for" if margins is False else
                                          f"there are more than {MOST:,} positions; --margins computes them"))
    return page_of(matches, found, limit=SMALL if limit is None else limit, tiles=tiles, title=title, notes=notes)
