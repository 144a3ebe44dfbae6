"""How many examples a property is tried with: the profile is `thorough`, or what FMM_PROFILE names. tests/run names `quick`."""
from __future__ import annotations

import os

from hypothesis import settings

# The examples of a property, and of one whose examples take longest, such as whole matches.
EXAMPLES = {"quick": (10, 2), "thorough": (300, 15)}
PROFILE = os.environ.get("FMM_PROFILE", "thorough")

for name, (count, _) in EXAMPLES.items():
    settings.register_profile(name, max_examples=count, deadline=None)
settings.load_profile(PROFILE)
slow = settings(max_examples=EXAMPLES[PROFILE][1])
