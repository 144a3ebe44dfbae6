"""FMM finds the roads that vehicles drove.

    import fmm
    network = fmm.Network.from_osm("area.osm.pbf")
    positions = fmm.read_positions("tracks/*.gpx")
    matches = fmm.match(network, positions)
    matches.to_file("result.gpkg")

Lengths are in metres and times in seconds. Names are imported when they are first used, so `import fmm` alone is fast.
"""
from __future__ import annotations

import importlib
from typing import TYPE_CHECKING, Any

from ._version import __version__

if TYPE_CHECKING:
    from .errors import (
        FmmError, FmmWarning, InputError, MismatchError, MissingLibraryError, OptionError, OutputError, ProgramError,
    )
    from .matches import Matches, open_matches
    from .matching import match
    from .network import Network
    from .options import Options
    from .positions import Positions, read_positions
    from .projection import Projection
    from .suggestions import Suggestion, suggest

# The public names, and the modules that define them.
_MODULES = {
    "Network": "network",
    "Positions": "positions",
    "read_positions": "positions",
    "Options": "options",
    "Suggestion": "suggestions",
    "suggest": "suggestions",
    "match": "matching",
    "Matches": "matches",
    "open_matches": "matches",
    "Projection": "projection",
    "FmmError": "errors",
    "FmmWarning": "errors",
    "InputError": "errors",
    "MismatchError": "errors",
    "MissingLibraryError": "errors",
    "OptionError": "errors",
    "OutputError": "errors",
    "ProgramError": "errors",
}

__all__ = [
    "FmmError", "FmmWarning", "InputError", "Matches", "MismatchError", "MissingLibraryError", "Network", "OptionError",
    "Options", "OutputError", "Positions", "ProgramError", "Projection", "Suggestion", "__version__", "match",
    "open_matches", "read_positions", "suggest",
]


def __getattr__(name: str) -> Any:
    if name not in _MODULES:
        raise AttributeError(f"module 'fmm' has no attribute {name!r}")
    from ._libraries import explained
    with explained():
        module = importlib.import_module(f"fmm.{_MODULES[name]}")
    value = getattr(module, name)
    globals()[name] = value
    return value


def __dir__() -> list[str]:
    return sorted(__all__)
