"""Tells maps, graphs, layers and network files apart, and reads each."""
from __future__ import annotations

import os
import re
from pathlib import Path
from typing import TYPE_CHECKING, Any, Optional

from ._evidence import checksum_of, refuse_pipe
from ._records import read_records
from .errors import FmmError, InputError, MissingLibraryError, OptionError, PathText, shown

if TYPE_CHECKING:
    import geopandas

ROOT = re.compile(rb"<([A-Za-z][\w:.-]*)")
NUMBERED = re.compile(r"[0-9]{1,18}")


def kind_of(path: PathText) -> str:
    """`osm`, `graph` (GraphML), `network` (a network file of the proved programs) or `layer`, by the content of a file."""
    name = os.fspath(path)
    if os.path.isdir(path):
        return "layer"  # such as a file geodatabase
    refuse_pipe(path)
    try:
        with open(path, "rb") as file:
            head = file.read(4096)
    except OSError as fault:
        raise InputError(fault.strerror or fault, name) from None
    if not head:
        raise InputError("is empty", name)
    if b"OSMHeader" in head[:80] or head.startswith((b"BZh", b"\x1f\x8b")):
        return "osm"
    if head.lstrip(b"\xef\xbb\xbf \t\r\n").startswith(b"<"):
        root = ROOT.search(head)
        return {b"osm": "osm", b"osmChange": "osm", b"graphml": "graph"}.get(root[1] if root else b"", "layer")
    return "network" if re.match(rb"\s*edge\s*,\s*from\s*,\s*to\s*,\s*line\s", head) else "layer"


def read_layer(path: PathText, layer: Optional[str] = None) -> geopandas.GeoDataFrame:
    """A layer of any file that GDAL reads: GeoPackage, Shapefile (zipped too), GeoJSON, FlatGeobuf, CSV with a column WKT ..

    Without `layer` the file may have only one. Refused with InputError: a file that GDAL does not read, an unknown layer, and
    CSV that `read_records` refuses.
    """
    import geopandas

    from ._layer_files import layer_names
    name = os.fspath(path)
    records = {str(file): len(read_records(file)) for file in tables_of(path)}
    source = f"zip://{name}" if name.lower().endswith(".zip") else name
    try:
        names = layer_names(source)
        if layer is None and len(names) > 1:
            raise InputError(f"has the layers {shown(', '.join(names), 100)}: name one", name)
        if layer is not None and layer not in names:
            raise InputError(f"has no layer {shown(layer)}, but {shown(', '.join(names), 100)}", name)
        roads = geopandas.read_file(source, layer=layer or (names[0] if names else None))
    except FmmError:
        raise
    except Exception as fault:  # fiona and pyogrio have exceptions of their own
        raise InputError(f"cannot be read as a layer: {shown(fault, 200)}", name) from None
    if not isinstance(roads, geopandas.GeoDataFrame):
        raise InputError("is a table without geometry", name)
    if len(records) == 1 and len(roads) != records.get(name, len(roads)):
        raise InputError(f"has {records[name]} records, of which GDAL reads {len(roads)}", name)
    roads.attrs.update(path=name, sha256=checksum_of(path) if os.path.isfile(path) else None)
    return roads


def tables_of(path: PathText) -> list[Path]:
    """The files of a layer that GDAL reads as CSV. It takes the records after a stray quote for one field, without a word."""
    here = Path(path)
    return [file for file in (sorted(here.iterdir()) if here.is_dir() else [here]) if file.suffix.lower() == ".csv"]


def read_graph(path: PathText) -> Any:
    """A graph from GraphML, with the types that OSMnx gives its attributes."""
    try:
        import networkx
    except ModuleNotFoundError:
        raise MissingLibraryError("graphs need networkx; on Debian: apt-get install python3-networkx") from None
    try:
        graph = networkx.read_graphml(path)
    except Exception as fault:  # the parser, the reader of keys and networkx each raise their own
        raise InputError(f"cannot be read as GraphML: {shown(fault, 200)}", path) from None
    for _, about in graph.nodes(data=True):
        about.update({key: float(about[key]) for key in ("x", "y") if is_number(about.get(key))})
    for _, _, about in graph.edges(data=True):
        for key in ("oneway", "reversed"):
            if isinstance(about.get(key), str):
                about[key] = about[key] == "True"
        if isinstance(about.get("geometry"), str):
            about["geometry"] = line_of(about["geometry"], path)
    if all(isinstance(node, str) and NUMBERED.fullmatch(node) for node in graph):
        graph = networkx.relabel_nodes(graph, {node: int(node) for node in graph})
    return graph


def is_number(value: object) -> bool:
    try:
        float(value)  # type: ignore[arg-type]
    except (TypeError, ValueError):
        return False
    return True


def line_of(text: str, path: PathText) -> Any:
    from shapely import wkt
    try:
        return wkt.loads(text)
    except Exception:
        raise InputError(f"a geometry that is no WKT: {shown(text)}", path) from None


def check_words(kind: str, words: dict[str, Any]) -> dict[str, Any]:
    """The options that are given, if this kind of file takes them."""
    taken = {"osm": ("profile", "bbox", "crs", "restrictions"), "graph": ("crs",), "network": ("crs",),
             "layer": ("crs", "layer", "oneway", "forward", "backward", "join", "columns")}
    known = sorted({name for names in taken.values() for name in names})
    for name in words:
        if name not in known:
            raise OptionError.unknown(name, known)
        if name not in taken[kind]:
            what = {"osm": "an OpenStreetMap file", "graph": "a graph", "network": "a network file", "layer": "a layer"}[kind]
            raise OptionError(f"{name} is no option for {what}")
    return words
