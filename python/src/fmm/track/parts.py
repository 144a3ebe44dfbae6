"""Puts a tracker together."""
from __future__ import annotations

from collections.abc import Sequence
from dataclasses import dataclass
from pathlib import Path
from typing import Optional

from ..errors import FmmError
from ..feed.intake import Intake, Reading, Rules
from ..feed.notices import Notices
from ..feed.sources import Source
from ..feed.state import State
from ..network import Network
from ..options import Options, centimetres
from ..service.program import Program, far_place
from .fleet import Ends, Fleet
from .journal import Journal
from .provisional import Provisional
from .roads import Streets
from .sinks import Sinks, Stop
from .streams import Streams
from .tracker import Tracker


@dataclass(frozen=True)
class Parts:
    """The network, the program and the rules of a run, which have been read and checked."""

    network: Network
    program: Path
    options: Options
    lookup: Optional[Path]
    reading: Reading
    rules: Rules
    ends: Ends
    has_provisional: bool
    notices: Notices

    def tracker(self, state: State, source: Source, sinks: Sinks, stop: Stop) -> Tracker:
        """A tracker over a source. It starts the programs."""
        options, path = self.options, self.network.path
        far = far_place(self.network.lines.xy, centimetres(options.radius))
        words = options.but(gap=None).arguments()
        idle = [] if self.ends.idle is None else ["--idle", str(self.ends.idle)]
        journal = Journal(state)
        self._keep_settings(state, journal, [*options.but(gap=None, workers=1).arguments(), *idle])
        intake = Intake(self.reading, state, self.rules, self.notices)
        streets = Streets(self.network, centimetres(options.back), self.lookup)

        def streams() -> Streams:
            self.network.check_file()
            return Streams(self.program, path, [*words, *idle], far)

        def program() -> Program:
            self.network.check_file()
            return Program(self.program, path, words, far)

        fleet = Fleet(streams, streets, journal, intake, self.ends)
        provisional = None
        if self.has_provisional:
            provisional = Provisional(program, fleet, intake.waiting, self.notices)
        return Tracker(source, fleet, sinks, provisional, stop)

    def _keep_settings(self, state: State, journal: Journal, words: Sequence[str]) -> None:
        """Refuses a state with positions that were taken for another network or other options: their lines would be others."""
        settings = " ".join([self.network.checksum, str(self.network.projection.text), *words])
        known = state.get("match")
        has_positions = any(True for _ in journal.rows()) or any(True for _ in state.waiting())
        if has_positions and known not in (None, settings):
            raise FmmError(f"{state.path} has open drives of another network or of other options: end them by the former command "
                           "with < /dev/null, or begin a new state")
        state.set("match", settings)
