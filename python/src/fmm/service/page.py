"""The files of the page."""
from __future__ import annotations

from pathlib import Path
from typing import Tuple

LEAFLET = Path("/usr/share/javascript/leaflet")  # of Debian's libjs-leaflet
HERE = Path(__file__).parent / "files"
FILES = {"/": "index.html", "/page.js": "page.js", "/live.js": "live.js", "/page.css": "page.css", "/leaflet.js": "leaflet.js",
         "/leaflet.css": "leaflet.css"}
KINDS = {".html": "text/html; charset=utf-8", ".js": "text/javascript; charset=utf-8", ".css": "text/css; charset=utf-8"}


def content(name: str) -> Tuple[bytes, str]:
    """A file of the page and its type. Without libjs-leaflet its files are empty, and the page says so."""
    path = HERE / name
    if name.startswith("leaflet"):
        path = LEAFLET / name
        if not path.is_file():
            return b"", KINDS[path.suffix]
    return path.read_bytes(), KINDS[path.suffix]
