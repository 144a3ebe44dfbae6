"""The text of a match, of `follow` (and `fmm_live`) or of `streams`, read by its whole grammar into arrays.

A text is refused with the number of its first line that is missing or not allowed in its place. So no line can be lost, doubled,
halved or moved to where the grammar does not allow it. What a grammar cannot show, a wrong cost for example, is shown by the
checksum of the text or by the network and the positions.
"""
from __future__ import annotations

from dataclasses import dataclass
from typing import Dict, List, NoReturn, Optional, Union

import numpy as np

from ._ragged import offsets_of, rows_of, spread
from ._text_order import AT, END, FINISH, FIX, NONE, PIECE, TRACE, Lines, follow_fault, match_fault, streams_fault
from ._tokens import HEAD, TAIL, Source, Tokens, code_of, padded
from .errors import InputError

NEWLINE = b"\n"
ID_LIMIT, POSITION_LIMIT, NO_LIMIT = 2 ** 32, 100_000, 2 ** 63 - 1
# The words of each kind of line, with the limit of each number, which no number reaches.
FORMS: Dict[int, List[Union[str, int]]] = {
    TRACE: ["trace", ID_LIMIT],
    AT: ["at", POSITION_LIMIT, "edge", ID_LIMIT, "offset", ID_LIMIT, "d2", NO_LIMIT],
    NONE: ["none", POSITION_LIMIT],
    PIECE: ["piece", POSITION_LIMIT, POSITION_LIMIT, "cost", NO_LIMIT, "route", ID_LIMIT],
    END: ["end", ID_LIMIT],
    FIX: ["fix", POSITION_LIMIT],
    FINISH: ["finish"],
}
OTHER_TEXTS = {b"fmm-certificate": "a certificate of fmm prove", b"fmm-table": "a table of fmm table"}


@dataclass
class MatchText:
    """What a text says. Traces, positions and pieces have the order of the text; in `streams`, that of the first line of each id.
    With `idle` an id of `streams` has a trace for each of its drives.

    A trace is named by its place in `traces`, since an id may come again in a text of match. `first` and `last` count from 0 in
    each trace.
    """

    name: str  # for messages: the path, or what the caller named
    kind: str  # "match", "follow" or "streams"
    traces: np.ndarray  # int64[t]: ids
    position_first: np.ndarray  # int64[t + 1]: where the positions of each trace begin
    trace_of: np.ndarray  # int64[p]: the place of the trace of each position
    edge: np.ndarray  # int64[p]: the id of the edge, -1 for none
    offset: np.ndarray  # int64[p]: centimetres, -1 for none
    d2: np.ndarray  # int64[p]: square centimetres, -1 for none
    piece_trace: np.ndarray  # int64[q]: the place of the trace of each piece
    first: np.ndarray  # int64[q]
    last: np.ndarray  # int64[q]
    cost: np.ndarray  # int64[q]
    route_first: np.ndarray  # int64[q + 1]: where the route of each piece begins
    route: np.ndarray  # int64[r]: ids of edges
    rows: Optional[int]  # of the total line; None in a text that `fleet` joined

    @property
    def piece_begins(self) -> np.ndarray:
        """The first position of each piece, among all positions."""
        return self.position_first[self.piece_trace] + self.first

    @property
    def piece_of(self) -> np.ndarray:
        """The piece of each position, -1 for none."""
        pieces = np.full(len(self.edge), -1, np.int64)
        counts = self.last - self.first + 1
        pieces[spread(self.piece_begins, counts)] = rows_of(counts)
        return pieces


def read_match(source: Source, name: str = "") -> MatchText:
    """Reads a text from a file or from its bytes. Raises InputError with the file and the line. Needs ten bytes for each byte."""
    data, name = padded(source, name)
    return _Reader(data, name).read()


class _Reader:
    """Reads one text. Each check notes the first line that it finds wrong; the first of all of them is reported."""

    def __init__(self, data: np.ndarray, name: str) -> None:
        self.data, self.name = data, name
        self.faults: Dict[int, str] = {}  # line, from 0: what is wrong

    def read(self) -> MatchText:
        self._look()
        self.tokens = Tokens(self.data)
        self.first_word, self.words = self.tokens.line_first[:-1], np.diff(self.tokens.line_first)
        self._note(np.searchsorted(self.tokens.line_first, self.tokens.strange, side="right") - 1)
        self.total = self._total()
        self._split()
        lines = self._lines()
        self._check_order(lines)
        if not self.faults:
            text = self._text(lines)
            self._check_ends(text, lines)
        if self.faults:
            self._refuse()
        self._check_total(text)
        return text

    # ---- the lines by themselves

    def _look(self) -> None:
        """Refuses what is no match at all, and a last line without LF."""
        text = self.data[HEAD:len(self.data) - TAIL]
        head = text[:200].tobytes()
        if not head:
            raise InputError("is empty", self.name)
        for begin, what in OTHER_TEXTS.items():
            if head.startswith(begin):
                raise InputError(f"is {what}, not a match", self.name)
        first = head.split(NEWLINE)[0].split(b" ")
        if b"trace" not in first[:2] and first[0] != b"total" and not b"trace".startswith(head):
            raise InputError(f"is not a match: its first line is {_shown(b' '.join(first)) or 'empty'}", self.name)
        if text[-1] != 10:
            line = int(np.count_nonzero(text == 10)) + 1
            raise InputError(f"is cut in this line: {_shown(text[-4096:].tobytes().split(NEWLINE)[-1])}", self.name, line)
        self.streams = first[1:2] == [b"trace"]

    def _total(self) -> Optional[List[int]]:
        """The numbers of the last line, if it is a total line."""
        last = self.tokens.line_count - 1
        words = np.arange(self.tokens.line_first[last], self.tokens.line_first[last + 1])
        codes, (values, good) = self.tokens.codes(words), self.tokens.numbers(words)
        if codes[0] != code_of("total"):
            return None
        names = ["traces", "points", "pieces", "rows"][:max(3, len(words) // 2)]
        if len(words) == 1 + 2 * len(names) and all(codes[1::2] == [code_of(name) for name in names]) and good[2::2].all():
            return [int(value) for value in values[2::2]]
        self._note(np.array([last]))
        return [0, 0, 0]

    def _split(self) -> None:
        """Takes off the total line, and in a text of streams the ids."""
        self.lines = np.arange(self.tokens.line_count - (self.total is not None))
        self.first_word, self.words = self.first_word[self.lines], self.words[self.lines]
        if self.streams:
            self.ids, good = self.tokens.numbers(self.first_word)
            self._note(self.lines[~good | (self.ids >= ID_LIMIT) | (self.words < 2)])
            self.first_word, self.words = self.first_word + 1, self.words - 1

    def _lines(self) -> Lines:
        """The kinds and numbers of all lines; faults are noted."""
        codes = self.tokens.codes(self._within(self.first_word))
        kinds = np.full(len(self.lines), -1, np.int8)
        for kind, form in FORMS.items():
            kinds[codes == code_of(str(form[0]))] = kind
        is_total = codes == code_of("total")
        self.first_total = int(np.append(np.flatnonzero(is_total), len(kinds))[0])
        if self.first_total < len(kinds):
            self.faults[self.first_total + 1] = "follows the total line"
        self._note(np.flatnonzero((kinds == -1) & ~is_total))
        number, begin = np.zeros(len(kinds), np.int64), np.zeros(len(kinds), np.int64)
        self.values = {kind: self._values(kind, np.flatnonzero(kinds == kind)) for kind in FORMS}
        for kind, place in ((TRACE, 1), (AT, 1), (NONE, 1), (PIECE, 2), (END, 1), (FIX, 1)):
            number[kinds == kind] = self.values[kind][place]
        begin[kinds == PIECE] = self.values[PIECE][1]
        return Lines(kinds, number, begin, self.lines)

    def _values(self, kind: int, lines: np.ndarray) -> Dict[int, np.ndarray]:
        """The numbers of the lines of a kind, by the place of their word."""
        form = FORMS[kind]
        count = self.words[lines]
        wrong = count < len(form) if kind == PIECE else count != len(form)
        values: Dict[int, np.ndarray] = {}
        for place, word in enumerate(form):
            words = self._within(self.first_word[lines] + place)
            if isinstance(word, str):
                wrong |= self.tokens.codes(words) != code_of(word)
            else:
                values[place], good = self.tokens.numbers(words)
                wrong |= ~good | (values[place] >= word)
        self._note(lines[wrong])
        return values

    def _within(self, words: np.ndarray) -> np.ndarray:
        return np.minimum(words, len(self.tokens.ends) - 1)

    def _note(self, lines: np.ndarray, what: str = "has no place there") -> None:
        if len(lines):
            self.faults.setdefault(int(lines.min()), what)

    # ---- the lines in their order

    def _check_order(self, lines: Lines) -> None:
        """Looks at the lines before the first fault."""
        self.follows = bool(np.isin(lines.kind, (FIX, FINISH)).any())
        self.order = np.arange(len(self.lines))
        known = np.arange(min([self.first_total, *self.faults]))
        if self.streams:
            rank, ids = self._ranks(), self.ids[known]
            self._note_line(streams_fault(lines.take(known), ids, rank[known]))
            self.order = np.argsort(rank, kind="stable")
            known = self.order[self.order < len(known)]
        ordered = lines.take(known)
        self._note_line(match_fault(ordered, self.streams))
        if self.follows or self.streams:
            self._note_line(follow_fault(ordered))
        if not self.faults:
            self._check_cut(lines)

    def _ranks(self) -> np.ndarray:
        """The place of each line's id in the order of first appearance."""
        _, first, which = np.unique(self.ids, return_index=True, return_inverse=True)
        return np.argsort(np.argsort(first))[which]

    def _note_line(self, line: Optional[int]) -> None:
        if line is not None:
            self.faults.setdefault(line, "has no place there")

    def _check_cut(self, lines: Lines) -> None:
        """Whether each trace has its end, and the text its total line."""
        kinds = lines.kind[self.order]
        traces = np.flatnonzero(kinds == TRACE)
        ends = np.append(traces[1:], len(kinds))[:len(traces)] - 1
        open_traces = traces[kinds[ends] != END]
        what = "it has no total line at its end"
        if len(open_traces):
            what = f"trace {lines.number[self.order[open_traces[0]]]} has no end line"
        if len(open_traces) or self.total is None:
            raise InputError(f"is cut after this line: {what}", self.name, self.tokens.line_count)

    def _refuse(self) -> NoReturn:
        line = min(self.faults)
        words = self.tokens.line_first[line:line + 2]
        begin = int(self.tokens.starts(words[:1])[0])
        shown = _shown(self.data[begin:int(self.tokens.ends[words[1] - 1])].tobytes()) or "an empty line"
        raise InputError(f"{shown} {self.faults[line]}", self.name, line + 1)

    # ---- the arrays

    def _text(self, lines: Lines) -> MatchText:
        ordered = lines.take(self.order)
        is_at, is_piece = ordered.kind == AT, ordered.kind == PIECE
        is_position = is_at | (ordered.kind == NONE)
        trace = np.cumsum(ordered.kind == TRACE) - 1
        trace_of = trace[is_position]
        labels = np.full((3, len(trace_of)), -1, np.int64)
        ats = self._among(lines.kind == AT)[self.order[is_at]]
        labels[:, is_at[is_position]] = [self.values[AT][place][ats] for place in (3, 5, 7)]
        pieces = self._among(lines.kind == PIECE)[self.order[is_piece]]
        route_first, route = self._routes(self.order[is_piece])
        traces = ordered.number[ordered.kind == TRACE]
        counts = np.bincount(trace_of, minlength=len(traces))
        rows = self.total[3] if self.total and len(self.total) > 3 else None
        return MatchText(
            self.name, "streams" if self.streams else "follow" if self.follows else "match", traces,
            offsets_of(counts), trace_of, labels[0], labels[1], labels[2], trace[is_piece],
            self.values[PIECE][1][pieces], self.values[PIECE][2][pieces], self.values[PIECE][4][pieces], route_first, route, rows)

    @staticmethod
    def _among(which: np.ndarray) -> np.ndarray:
        """The place of each line among the lines of its kind."""
        return np.cumsum(which) - 1

    def _routes(self, lines: np.ndarray) -> tuple[np.ndarray, np.ndarray]:
        """The routes of the lines of pieces: where each begins, and the ids of all."""
        before = FORMS[PIECE].index("route") + 1
        counts = self.words[lines] - before
        edges, good = self.tokens.numbers(spread(self.first_word[lines] + before, counts))
        wrong = ~good | (edges >= ID_LIMIT)
        self._note(np.repeat(lines, counts)[wrong])
        return offsets_of(counts), edges

    def _check_ends(self, text: MatchText, lines: Lines) -> None:
        """A route begins and ends on the edges of its first and last position."""
        begins = text.piece_begins
        wrong = text.route[text.route_first[:-1]] != text.edge[begins]
        wrong |= text.route[text.route_first[1:] - 1] != text.edge[begins + text.last - text.first]
        pieces = self.order[lines.kind[self.order] == PIECE]
        self._note(self.lines[pieces[wrong]], "does not begin and end on the edges of its positions")

    def _check_total(self, text: MatchText) -> None:
        has = [len(text.traces), len(text.edge), len(text.cost)]
        if self.total is not None and self.total[:3] != has:
            found = f"it has {has[0]} traces, {has[1]} points and {has[2]} pieces"
            raise InputError(f"lacks lines: {found}, its total line has {self.total[0]}, {self.total[1]} and {self.total[2]}",
                             self.name)


def _shown(line: bytes) -> str:
    """The beginning of a line for a message."""
    return line[:400].decode(errors="replace").strip()[:60]
