"""The page: one file of HTML with its programs, styles and data in it, which asks no network for anything."""
from __future__ import annotations

import html
import json
import os
import re
from dataclasses import dataclass
from pathlib import Path
from typing import TYPE_CHECKING, Any, Dict, List, Optional

from .._output import Outputs
from .._version import __version__
from ..errors import FmmError, MissingLibraryError, OptionError, PathText
from .doubts import SMALL, doubts_of
from .margins import Margins
from .packing import Pack
from .plane import Plane
from .tables import Tables

if TYPE_CHECKING:
    from ..matches import Matches

HERE = Path(__file__).parent
LEAFLET = Path("/usr/share/javascript/leaflet")
PROGRAMS = ("data", "drawing", "layer", "panel", "details", "player", "main")
TILES = re.compile(r"https?://[^\s\"'<>;,]+")


@dataclass
class Page:
    """A page as text. `notes` are lines about what it has not."""

    html: str
    notes: List[str]

    def save(self, path: PathText) -> None:
        """Writes the page to a file whose name ends in .html, so that it is none of a match."""
        if not os.fspath(path).lower().endswith((".html", ".htm")) and os.fspath(path) not in ("-", "/dev/stdout"):
            raise OptionError(f"{os.fspath(path)}: the name of a map ends in .html")
        with Outputs() as outputs:
            outputs.open(path).write(self.html)

    def _repr_html_(self) -> str:
        """The page in a notebook."""
        style = "width:100%;height:600px;border:0"
        return f'<iframe title="Map of the match" style="{style}" srcdoc="{html.escape(self.html)}"></iframe>'


def page_of(matches: Matches, margins: Optional[Margins], *, limit: float = SMALL, tiles: Optional[str] = None,
            title: str = "Match", notes: Optional[List[str]] = None) -> Page:
    """The page of a match.

    margins   None: the page has no candidates
    limit     a margin below this is small
    tiles     the address of a base map with {z}, {x} and {y}; None: none, and the page asks no network for anything
    """
    if tiles is not None and (not TILES.fullmatch(tiles) or not all(part in tiles for part in ("{z}", "{x}", "{y}"))):
        raise OptionError(f"{tiles} is no address of tiles, such as https://tile.openstreetmap.org/{{z}}/{{x}}/{{y}}.png")
    known = matches.points.crs is not None
    if tiles is not None and not known:
        raise OptionError("tiles need a projection, and that of the network is not known")
    notes = list(notes or [])
    plane = Plane(known)
    doubts = doubts_of(matches, limit)
    tables = Tables(matches, doubts, margins, plane, measured_crs(matches))
    tables.add_positions()
    tables.add_drives()
    tables.add_edges()
    network = margins.network if margins is not None else matches.network
    if network is not None:
        notes += [note for note in [tables.add_network(network)] if note]
    tables.add_candidates()
    hidden = len(matches.points) - len(tables.order.row)
    notes += [f"{hidden:,} rows have no place on the map"] if hidden else []
    place = tables.order.place
    about: Dict[str, Any] = {
        "version": __version__, "mercator": known, "tiles": tiles, "begin": tables.begin, "title": title, "limit": limit,
        "margins": margins is not None or "margin" in matches.points, "texts": tables.texts.all, "report": doubts.lines,
        "warnings": list(matches.report.warnings), "notes": notes, "figures": tables.drives(),
        "places": [{**one, "position": int(place[one["row"]])} for one in doubts.places if place[one["row"]] >= 0],
    }
    return Page(assembled(about, tables.pack, tables.more, tiles), notes)


def measured_crs(matches: Matches) -> Any:
    """The CRS of x and y of the points; None for metres of a plane of unknown place."""
    crs = matches.evidence.get("positions_crs") if matches.solution is None else matches.solution.positions.crs
    if crs is not None:
        return crs
    return matches.points.crs if matches.network is None else matches.network.projection.crs


def assembled(about: Dict[str, Any], pack: Pack, more: Pack, tiles: Optional[str]) -> str:
    """The text of the page."""
    data = {**about, "arrays": pack.index, "candidates": more.index}
    parts = {
        "title": html.escape(about["title"]), "policy": policy(tiles), "leaflet_style": leaflet("leaflet.css"),
        "style": (HERE / "page.css").read_text(encoding="utf-8"), "leaflet": leaflet("leaflet.min.js"),
        "about": script_text(json.dumps(data, ensure_ascii=False, separators=(",", ":"), allow_nan=False)),
        "arrays": pack.text(), "candidates": more.text(),
        "program": "\n".join((HERE / f"{name}.js").read_text(encoding="utf-8") for name in PROGRAMS),
    }
    form = (HERE / "page.html").read_text(encoding="utf-8")
    return re.sub(r"\{\{(\w+)\}\}", lambda found: parts[found[1]], form)


def script_text(text: str) -> str:
    """JSON that cannot end the element around it."""
    return text.replace("<", "\\u003c").replace("\u2028", "\\u2028").replace("\u2029", "\\u2029")


def policy(tiles: Optional[str]) -> str:
    """The content security policy: scripts and styles of the file itself, images of the file and of the tiles."""
    host = "" if tiles is None else " " + re.sub(r"\{s\}", "*", "/".join(tiles.split("/")[:3]))
    own = "default-src 'none'; base-uri 'none'; form-action 'none'; script-src 'unsafe-inline'; style-src 'unsafe-inline'"
    return f"{own}; img-src data:{host}"


def leaflet(name: str) -> str:
    """A file of Leaflet. Its pictures are not used, so the style does not name them."""
    try:
        text = (LEAFLET / name).read_text(encoding="utf-8")
    except OSError:
        raise MissingLibraryError("the map needs Leaflet: apt-get install libjs-leaflet") from None
    if "</script" in text or "</style" in text:
        raise FmmError(f"{LEAFLET / name}: cannot be put into a page")
    return re.sub(r"url\([^)]*\)", "none", text) if name.endswith(".css") else re.sub(r"//# sourceMappingURL.*", "", text)
