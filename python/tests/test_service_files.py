"""POST /match, the page, and the examples of docs/SERVICE.md."""
from __future__ import annotations

import json
import re
import shlex
import subprocess
from collections.abc import Iterator
from pathlib import Path
from typing import Any

import numpy as np
import pytest
from services import TOP, Service, blocks, running

pytest.importorskip("starlette", reason="python3-starlette is not installed")
pytest.importorskip("uvicorn", reason="python3-uvicorn is not installed")

SMALL = TOP / "recipes" / "small"


@pytest.fixture(scope="module")
def service() -> Iterator[Service]:
    with running(SMALL / "village.osm", "--processes", "1") as made:
        yield made


def posted(service: Service, content: Any, kind: str, query: str = "") -> dict[str, Any]:
    """The answer to a file, which has to be one of GeoJSON."""
    answer = service.client.post(f"/match{query}", content=content, headers={"content-type": kind})
    assert answer.status_code == 200, answer.text
    assert answer.headers["content-type"] == "application/geo+json"
    return answer.json()


def layer(answer: dict[str, Any], name: str) -> list[dict[str, Any]]:
    return [feature for feature in answer["features"] if feature["properties"]["layer"] == name]


def test_a_gpx_file_is_answered_by_positions_and_roads(service: Service) -> None:
    text = (SMALL / "monday.gpx").read_bytes()
    answer = posted(service, text, "application/gpx+xml")
    points = layer(answer, "points")
    assert len(points) == text.count(b"<trkpt ") == answer["report"]["positions"]
    assert answer["report"]["matched"] == sum(point["properties"]["edge"] is not None for point in points) > 0
    assert all(point["properties"]["reason"] or point["properties"]["edge"] is not None for point in points)
    route = layer(answer, "routes")[0]
    assert route["geometry"]["type"] == "LineString" and route["properties"]["metres"] > 0
    assert layer(posted(service, text, "application/gpx+xml", "?layers=edges"), "edges")[0]["properties"]["entry"].endswith("Z")


def test_it_is_the_match_of_the_package(service: Service) -> None:
    import fmm
    network = fmm.Network.from_osm(SMALL / "village.osm")
    positions = fmm.read_positions(SMALL / "fleet.csv")
    wanted = fmm.suggest(positions).options
    assert wanted.thin and wanted.back > fmm.Options().back
    suggested = fmm.Options(gap=300, thin=wanted.thin, back=wanted.back)
    for query, options in (("", suggested), ("?thin=0", fmm.Options(gap=300, thin=0))):
        matches = fmm.match(network, positions, options=options)
        answer = posted(service, (SMALL / "fleet.csv").read_bytes(), "text/csv", query)
        assert answer["report"]["options"]["thin"] == options.thin and answer["report"]["options"]["back"] == options.back
        routes = [route["properties"] for route in layer(answer, "routes")]
        assert [(route["id"], route["edges"], route["cost"]) for route in routes] == \
            list(zip(matches.routes["id"], matches.routes["edges"], matches.routes["cost"]))
        edges = [point["properties"]["edge"] for point in layer(answer, "points")]
        assert edges == [None if edge is None else edge for edge in matches.points["edge"].astype(object).where(
            matches.points["edge"].notna(), None)]


def test_each_form_of_rows_has_the_same_match(service: Service) -> None:
    places = [[9.43 + 0.0005 * i, 54.31] for i in range(8)]
    times = [f"2024-05-06T07:00:{5 * i:02}Z" for i in range(8)]
    table = "id,lon,lat,time\n" + "".join(f"0,{x},{y},{time}\n" for (x, y), time in zip(places, times))
    objects = [{"id": "0", "lon": x, "lat": y, "time": time} for (x, y), time in zip(places, times)]
    line = {"type": "Feature", "properties": {"coordTimes": times}, "geometry": {"type": "LineString", "coordinates": places}}
    dots = {"type": "FeatureCollection", "features": [
        {"type": "Feature", "properties": {"id": "0", "time": time}, "geometry": {"type": "Point", "coordinates": place}}
        for place, time in zip(places, times)]}
    found = [layer(posted(service, table, "text/csv"), "routes")]
    found += [layer(posted(service, json.dumps(content), "application/json"), "routes") for content in (objects, line, dots)]
    assert found[0] and all(routes == found[0] for routes in found)


@pytest.mark.parametrize("content, kind, status", [
    (b"id,lon,lat\n", "text/csv", 400),
    (b"", "text/csv", 400),
    (b"id,lon,lat\na,9,54\n\xff", "text/csv", 400),
    (b"<gpx><trk>", "application/gpx+xml", 400),
    (b"<gpx></gpx>", "application/gpx+xml", 400),
    (b"[1]", "application/json", 400),
    (b"[[]]", "application/json", 400),
    (b'[{"lon": [9], "lat": 54}]', "application/json", 400),
    (b'{"type": "FeatureCollection", "features": 3}', "application/geo+json", 400),
    (b'{"type": "FeatureCollection", "features": [3]}', "application/geo+json", 400),
    (b'{"type": "Polygon", "coordinates": [[[9, 54], [9, 55], [8, 55], [9, 54]]]}', "application/geo+json", 400),
    (b'{"type": "LineString", "coordinates": [["a", "b"], [1, 2]]}', "application/geo+json", 400),
    (b'{"type": "Point", "coordinates": [NaN, 54]}', "application/geo+json", 400),
    (b"[" * 100_000, "application/json", 400),
    (b"<OGRVRTDataSource/>", "application/geo+json", 400),
    (b"PK\3\4", "application/zip", 415),
])
def test_other_content_is_refused(service: Service, content: bytes, kind: str, status: int) -> None:
    answer = service.client.post("/match", content=content, headers={"content-type": kind})
    assert answer.status_code == status, answer.text
    said = answer.json()["message"]
    assert said and "/tmp" not in said and "Traceback" not in said


def test_entities_of_a_gpx_file_are_not_read(service: Service) -> None:
    text = b"""<?xml version="1.0"?><!DOCTYPE gpx [<!ENTITY a SYSTEM "file:///etc/hostname">]>
<gpx><trk><name>&a;</name><trkseg><trkpt lat="54.31" lon="9.43"/><trkpt lat="54.31" lon="9.431"/></trkseg></trk></gpx>"""
    answer = service.client.post("/match", content=text, headers={"content-type": "application/gpx+xml"})
    name = Path("/etc/hostname").read_text().strip()
    assert answer.status_code in (200, 400) and name not in answer.text


def test_options_of_a_request(service: Service) -> None:
    text = (SMALL / "monday.gpx").read_bytes()
    assert posted(service, text, "application/gpx+xml", "?thin=30&sigma=15&gap=60")["report"]["options"]["sigma"] == 15
    for query, name in (("radius=5", "radius"), ("sigma=x", "sigma"), ("layers=all", "layers"), ("gap=-1", "gap")):
        answer = service.client.post(f"/match?{query}", content=text, headers={"content-type": "application/gpx+xml"})
        assert answer.status_code == 400 and name in answer.json()["message"]


def test_a_file_becomes_a_map(service: Service) -> None:
    text = (SMALL / "monday.gpx").read_bytes()
    answer = service.client.post("/map", content=text, headers={"content-type": "application/gpx+xml"})
    assert answer.status_code == 200 and answer.headers["content-type"].startswith("text/html")
    assert answer.headers["content-disposition"].startswith("attachment") and answer.text.startswith("<!")
    refused = service.client.post("/map?layers=points", content=b"", headers={"content-type": "text/csv"})
    assert refused.status_code == 400 and "layers" in refused.json()["message"]


def test_the_page_and_its_files(service: Service) -> None:
    page = service.client.get("/")
    assert page.headers["content-type"].startswith("text/html")
    for name in re.findall(r'(?:src|href)="([^":]+)"', page.text):
        assert service.client.get(f"/{name}").status_code == 200
    assert "http" not in re.sub(r"http-equiv", "", page.text)
    described = service.client.get("/openapi.json").json()
    for path in described["paths"]:
        assert path in page.text or service.client.get("/docs").text.count(path)


def test_examples_of_the_page_about_the_service(service: Service, tmp_path: Path) -> None:
    page = (TOP / "docs" / "SERVICE.md").read_text()
    examples = blocks(page)
    described = service.client.get("/openapi.json").json()["paths"]
    for path in described:
        assert any(f":8000{path.partition('{')[0]}" in command for command, _ in examples), f"{path} has no example"
    for command, wanted in examples:
        done = subprocess.run(["bash", "-c", command.replace("http://127.0.0.1:8000", service.url)], cwd=TOP, capture_output=True,
                              text=True, check=True)
        if wanted:
            assert json.loads(done.stdout) == json.loads(wanted), command
        else:
            assert done.stdout, shlex.split(command)


DROP = """const data = new DataTransfer();
data.items.add(new File([arguments[0]], "walk.gpx"));
document.getElementById("map").dispatchEvent(new DragEvent("drop", {dataTransfer: data, bubbles: true, cancelable: true}));"""


def test_a_browser_matches_a_file(service: Service, browser: Any) -> None:
    from selenium.webdriver.support.ui import WebDriverWait  # type: ignore[import]
    browser.get(service.url + "/")
    browser.find_element("id", "file").send_keys(str(SMALL / "monday.gpx"))
    WebDriverWait(browser, 60).until(lambda d: "positions have a road" in d.find_element("id", "says").text)
    drawn = browser.execute_script("return window.drawn")
    text = (SMALL / "monday.gpx").read_bytes()
    answer = posted(service, text, "application/gpx+xml")
    points = [point["properties"]["edge"] is not None for point in layer(answer, "points") if point["geometry"]]
    lines = [route for route in layer(answer, "routes") if route["geometry"]]
    assert drawn == {"routes": len(lines), "points": sum(points), "off": len(points) - sum(points),
                     "pieces": len(layer(answer, "routes"))}
    browser.execute_script(DROP, (SMALL / "walk.gpx").read_text())
    WebDriverWait(browser, 60).until(lambda d: "walk.gpx:" in d.find_element("id", "says").text)
    points = layer(posted(service, (SMALL / "walk.gpx").read_bytes(), "application/gpx+xml"), "points")
    drawn = browser.execute_script("return window.drawn")
    assert drawn["points"] + drawn["off"] == sum(point["geometry"] is not None for point in points) > 0
    assert not [entry for entry in browser.get_log("browser") if entry["level"] == "SEVERE"]


def test_numbers_are_finite(service: Service) -> None:
    answer = posted(service, (SMALL / "walk.gpx").read_bytes(), "application/gpx+xml", "?layers=points,routes,edges")
    text = json.dumps(answer)
    assert "NaN" not in text and "Infinity" not in text
    assert np.isfinite(answer["report"]["metres"])
