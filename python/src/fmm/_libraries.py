"""The libraries that the package uses, and the Debian packages that have them."""
from __future__ import annotations

import importlib.util
from collections.abc import Iterator
from contextlib import contextmanager

# What each call of the package needs.
REQUIRED = {
    "geopandas": "python3-geopandas",
    "gpxpy": "python3-gpxpy",
    "numpy": "python3-numpy",
    "osmium": "python3-pyosmium",
    "pandas": "python3-pandas",
    "pyproj": "python3-pyproj",
    "shapely": "python3-shapely",
    "tqdm": "python3-tqdm",
}
# What single functions need.
OPTIONAL = {
    "distributed": "python3-distributed",
    "geoalchemy2": "python3-geoalchemy2",
    "matplotlib": "python3-matplotlib",
    "networkx": "python3-networkx",
    "paho": "python3-paho-mqtt",
    "psycopg2": "python3-psycopg2",
    "sqlalchemy": "python3-sqlalchemy",
    "starlette": "python3-starlette",
    "uvicorn": "python3-uvicorn",
}


def missing_packages() -> list[str]:
    """The Debian packages of the required libraries that this Python lacks."""
    return [package for library, package in REQUIRED.items() if importlib.util.find_spec(library) is None]


@contextmanager
def explained() -> Iterator[None]:
    """Turns the failed import of a library into MissingLibraryError, which names the Debian packages to install."""
    try:
        yield
    except ModuleNotFoundError as fault:
        library = (fault.name or "").partition(".")[0]
        if library not in REQUIRED and library not in OPTIONAL:
            raise
        from .errors import MissingLibraryError
        packages = missing_packages() if library in REQUIRED else [OPTIONAL[library]]
        raise MissingLibraryError(
            f"this Python has no library {library}; on Debian: apt-get install {' '.join(packages)}") from None
