"""Matches drives by the programs of one worker."""
from __future__ import annotations

import time
from pathlib import Path
from typing import Callable, List, Optional, TypeVar

import numpy as np

from .. import _programs
from .._match_text import MatchText, read_match
from ..errors import InputError
from ..network import Network
from ..options import Options, centimetres
from .lines import drives_text
from .program import DRIVES, NO_ROWS, Late, Lost, Program, far_place, follow_text
from .refusals import Refused, late
from .settings import MEGABYTE, Limits

START = 600.0  # seconds in which a program has to load its network
Read = TypeVar("Read")


class Matcher:
    """Has a program with the options of the service, and one for the last request with another sigma or back.

    A program that ends, or does not answer in time, is replaced. One that became too large, or has matched enough drives, is
    replaced by a next one as soon as that has loaded the network.
    """

    def __init__(self, network: Network, options: Options, limits: Limits) -> None:
        self.options, self.limits = options, limits
        self.program_path: Path = _programs.program(network.needs_large)
        self.network = network
        self.far = far_place(network.lines.xy, centimetres(options.radius))
        self.program = self._started(options)
        self.next: Optional[Program] = None
        self.other: Optional[Program] = None
        self.other_options = options
        self.replaced = 0

    def wait(self) -> None:
        """Waits until the program has loaded its network. Refused: it does not take the network."""
        self.program.ask(NO_ROWS)
        try:
            self.program.answer(time.monotonic() + START)
        except (Late, Lost) as fault:
            self.program.close()
            raise Refused("InternalError", f"the program does not start: {fault}", 500) from None

    def match(self, rows: np.ndarray, counts: np.ndarray, sigma: Optional[float], until: float) -> MatchText:
        """The match of drives of so many rows each, int64[n, 3] of x and y in centimetres and of seconds. Refused: it takes too
        long; a program fails twice."""
        options = self.options if sigma is None else self.options.but(sigma=sigma)
        return self._read(rows, counts, options, until, lambda got, first: drives_text(got, first, counts))

    def follow(self, rows: np.ndarray, name: int, options: Options, until: float) -> bytes:
        """The follow text of a drive as trace `name`. `options` differ from those of the service at most in sigma, back, gap and
        thin. Refused: as `match`."""
        asked = self.options.but(sigma=options.sigma, back=options.back)
        return self._read(rows, np.array([len(rows)]), asked, until, lambda got, drive: follow_text(got, drive, len(rows), name))

    def _read(self, rows: np.ndarray, counts: np.ndarray, options: Options, until: float,
              read: Callable[[bytes, int], Read]) -> Read:
        """What `read` makes of the lines of some drives and the id of the first one."""
        for last_try in (False, True):
            program = self._program_for(options)
            try:
                first = program.ask_all(rows, counts)
                found = read(program.answer(until), first)
                self._look_after(program)
                return found
            except Late:
                self._drop(program)
                raise late(self.limits.seconds) from None
            except Lost as lost:
                self._drop(program)
                self.replaced += 1
                if last_try:
                    raise Refused("InternalError", f"the program failed twice: {lost}", 500) from None
        raise AssertionError

    @property
    def memory(self) -> int:
        """Bytes of memory of all programs."""
        return sum(program.memory.all for program in self._programs())

    def close(self) -> None:
        for program in self._programs():
            program.close()

    def _programs(self) -> List[Program]:
        return [program for program in (self.program, self.next, self.other) if program]

    def _started(self, options: Options) -> Program:
        """A program over the network that was read. Refused: its file was changed since."""
        try:
            self.network.check_file()
        except InputError as fault:
            raise Refused("InternalError", str(fault), 500) from None
        words = [*options.but(gap=None).arguments(), "--gap", str(2 ** 32 - 1 if options.gap is None else int(options.gap))]
        return Program(self.program_path, self.network.path, words, self.far)

    def _program_for(self, options: Options) -> Program:
        if options == self.options:
            self._exchange()
            if self.program.is_closed:
                self.program = self._started(self.options)
            return self.program
        if self.other is None or self.other_options != options:
            if self.other:
                self.other.close()
            self.other, self.other_options = self._started(options), options
        return self.other

    def _exchange(self) -> None:
        """Takes the next program if it is ready."""
        if self.next and self.next.is_answered():
            following, self.next = self.next, None
            try:
                following.answer(time.monotonic() + START)
            except (Late, Lost):
                following.close()
                return
            self.program.close()
            self.program = following
            self.replaced += 1

    def _look_after(self, program: Program) -> None:
        """Prepares the replacement of a program that is too large."""
        if program.drives < DRIVES and program.memory.all < self.limits.memory * MEGABYTE:
            return
        if program is self.other:
            program.close()
            self.other = None
        elif self.next is None:
            try:
                self.next = self._started(self.options)
            except Refused:
                return  # the program at hand has the network that was read
            self.next.ask(NO_ROWS)

    def _drop(self, program: Program) -> None:
        program.close()
        if program is self.other:
            self.other = None
        else:
            self.program = self._started(self.options)


def read(lines: bytes, traces: int, positions: int) -> MatchText:
    """The match in the follow texts of some traces."""
    pieces = lines.count(b"\npiece ")
    return read_match(lines + f"total traces {traces} points {positions} pieces {pieces}\n".encode(), "the match")
