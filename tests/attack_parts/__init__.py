"""The parts of tests/attack: one module for each kind of input, and what they share."""
from __future__ import annotations

from .feeds import Feeds
from .layers import Layers
from .maps import Maps
from .matches import Matches
from .networks import Networks
from .parts import Parts
from .results import Results
from .tables import Tables
from .texts import Texts
from .tracks import Tracks

KINDS = {"table": Tables, "track": Tracks, "map": Maps, "layer": Layers, "network": Networks, "text": Texts, "part": Parts,
         "feed": Feeds, "match": Matches, "result": Results}
SELDOM = ("match",)  # cases of these run a program: one for ten of each other kind
