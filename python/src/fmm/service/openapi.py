"""The description of the service in the OpenAPI format, and as a page."""
from __future__ import annotations

from html import escape
from typing import Any, Dict, List

from .._version import __version__
from .settings import MEGABYTE, Settings

Words = Dict[str, Any]


def parameter(name: str, about: str, schema: Words, place: str = "query") -> Words:
    """A parameter of an endpoint; those of the path are required."""
    return {"name": name, "in": place, "required": place == "path", "description": about, "schema": schema}


def choice(*values: str) -> Words:
    return {"type": "string", "enum": list(values), "default": values[0]}


PROFILE = parameter("profile", "car, bicycle, foot or OSRM's names for them; it has to fit the network", {"type": "string"},
                    "path")
COORDINATES = parameter("coordinates", "longitude,latitude;longitude,latitude;.. or polyline(..) or polyline6(..)",
                        {"type": "string"}, "path")
MATCH: List[Words] = [
    PROFILE, COORDINATES,
    parameter("timestamps", "seconds since 1970 of each coordinate, separated by ;", {"type": "string"}),
    parameter("radiuses", "the accuracy in metres, equal for all coordinates, separated by ;", {"type": "string"}),
    parameter("geometries", "the form of lines", choice("polyline", "polyline6", "geojson")),
    parameter("overview", "whether lines are simplified, whole or left out", choice("simplified", "full", "false")),
    parameter("annotations", "some of duration, distance, speed for each leg, separated by commas", {"type": "string"}),
    parameter("gaps", "whether a gap in the timestamps breaks the drive", choice("split", "ignore")),
    parameter("tidy", "whether positions less than 10 m from the last one are left out", choice("false", "true")),
    parameter("skip_waypoints", "whether tracepoints are left out", choice("false", "true")),
]
NEAREST: List[Words] = [
    PROFILE, COORDINATES, parameter("number", "how many edges", {"type": "integer", "minimum": 1, "maximum": 100, "default": 1}),
    parameter("radiuses", "the greatest distance in metres, or unlimited", {"type": "string"})]
POSTED: List[Words] = [
    parameter("layers", "which tables come back, separated by commas: points, routes, edges", {"type": "string"}),
    parameter("gap", "seconds without a position that end a drive", {"type": "number"}),
    parameter("sigma", "the accuracy of positions in metres", {"type": "number"}),
    parameter("thin", "metres that a vehicle has to move for its next position to be matched; 0: all are", {"type": "number"}),
]


def answers(kind: str) -> Words:
    """The answers of an endpoint that can refuse."""
    fault = {"application/json": {"schema": {"type": "object", "properties": {"code": {"type": "string"},
                                                                              "message": {"type": "string"}}}}}
    said = {"200": "the answer", "400": "the request is wrong, or nothing matches", "413": "too large",
            "500": "a fault of the service",
            "503": "too many requests wait; Retry-After says when to try again", "504": "the match takes too long"}
    return {status: {"description": about, "content": fault if status != "200" else {kind: {"schema": {"type": "object"}}}}
            for status, about in said.items()}


def description(settings: Settings) -> Words:
    """The whole description."""
    limits = settings.limits
    content = {kind: {"schema": {"type": "string"}} for kind in ("application/gpx+xml", "text/csv", "application/geo+json")}
    simple = {"200": {"description": "the answer"}}
    return {
        "openapi": "3.0.3",
        "info": {"title": "FMM", "version": __version__, "description":
                 f"Matches positions to roads. At most {limits.positions} positions, {limits.size / MEGABYTE:g} MB and "
                 f"{limits.seconds:g} s for a request."},
        "paths": {
            "/match/v1/{profile}/{coordinates}": {"get": {"summary": "match a drive, as OSRM does", "parameters": MATCH,
                                                          "responses": answers("application/json")}},
            "/nearest/v1/{profile}/{coordinates}": {"get": {"summary": "the nearest edges, as OSRM gives them",
                                                            "parameters": NEAREST, "responses": answers("application/json")}},
            "/match": {"post": {"summary": "match a file: GPX, CSV or GeoJSON", "parameters": POSTED,
                                "requestBody": {"required": True, "content": content},
                                "responses": answers("application/geo+json")}},
            "/map": {"post": {"summary": "match a file and get a page with a map, for a browser", "parameters": POSTED[1:],
                              "requestBody": {"required": True, "content": content}, "responses": answers("text/html")}},
            "/live": {"get": {"summary": "where the vehicles of a live fleet are, as server-sent events", "responses": {
                "200": {"description": "events without end", "content": {"text/event-stream": {"schema": {"type": "string"}}}},
                "404": {"description": "the service has no live fleet"}, "503": {"description": "there are too many clients"}}}},
            "/network.json": {"get": {"summary": "the network and the options", "responses": simple}},
            "/health": {"get": {"summary": "whether workers are ready", "responses": simple}},
            "/metrics": {"get": {"summary": "counters for Prometheus", "responses": simple}},
        },
    }


def documents(settings: Settings) -> str:
    """The description as HTML."""
    parts = []
    for path, methods in description(settings)["paths"].items():
        for method, about in methods.items():
            rows = "".join(f"<tr><td>{escape(one['name'])}<td>{escape(one['description'])}<td>{escape(values_of(one['schema']))}"
                           for one in about.get("parameters", []))
            table = f"<table><tr><th>parameter<th>meaning<th>values{rows}</table>" if rows else ""
            parts.append(f"<h2>{method.upper()} {escape(path)}</h2><p>{escape(about['summary'])}</p>{table}")
    return ("<!doctype html><html lang=en><meta charset=utf-8><title>FMM: endpoints</title><link rel=stylesheet href=page.css>"
            f"<main class=text><h1>Endpoints</h1><p>As data: <a href=openapi.json>openapi.json</a></p>{''.join(parts)}</main>")


def values_of(schema: Words) -> str:
    """The values of a parameter, the default first."""
    return ", ".join(schema["enum"]) if "enum" in schema else str(schema["type"])
