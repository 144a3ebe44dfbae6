"""The map: margins of a match, what is in doubt, what the page has, and the command."""
from __future__ import annotations

import os
import re
import subprocess
from pathlib import Path

import forks
import numpy as np
import pandas as pd
import pytest
from maps import BEGIN, element, example, opened

import fmm
from fmm.commands import main
from fmm.errors import InputError, MismatchError, OptionError
from fmm.map.doubts import doubts_of
from fmm.map.plane import NOWHERE, Plane

pytestmark = pytest.mark.skipif(not Path("/usr/share/javascript/leaflet/leaflet.min.js").is_file(),
                                reason="the map, since there is no Leaflet: apt-get install libjs-leaflet")


def test_margins_are_a_column_of_points(top: Path) -> None:
    matches = example(top)
    before = matches.points.drop(columns=[])
    assert "margin" not in before
    matches.add_margins()
    points = matches.points
    assert list(points.columns).index("margin") == list(points.columns).index("distance") + 1
    assert points["margin"].isna().sum() == points["edge"].isna().sum() == 1
    assert (points["margin"].dropna() > 0).all()
    # the candidates of the first position, in the certificate: 51 51 2205 2205, of which the second is the other direction
    assert points["margin"].iloc[0] > 2205 - 51


def test_margins_of_written_matches_are_the_same(top: Path, tmp_path: Path) -> None:
    matches = example(top)
    matches.to_file(tmp_path / "tables")
    matches.to_file(tmp_path / "result.gpkg")
    matches.add_margins()
    for name in ("tables", "result.gpkg"):
        again = fmm.open_matches(tmp_path / name)
        again.add_margins()
        assert np.array_equal(again.points["margin"], matches.points["margin"], equal_nan=True)
        with pytest.raises(InputError, match="not there"):
            again.add_margins(tmp_path / "missing.csv")
    other = tmp_path / "other.csv"
    other.write_text((top / "examples" / "network.csv").read_text().replace("11,1100,1200,0 0", "11,1100,1200,1 0"))
    with pytest.raises(MismatchError, match="other.csv"):
        again.add_margins(other)
    matches.to_file(tmp_path / "with margins")
    kept = fmm.open_matches(tmp_path / "with margins").points["margin"]
    assert np.array_equal(kept, matches.points["margin"], equal_nan=True)


def test_doubts_name_their_reasons(top: Path) -> None:
    matches = example(top)
    matches.add_margins()
    doubts = doubts_of(matches)
    points = matches.points
    reasons = {(points["id"][row], int(points["point"][row])): doubts.reason[row] for row in np.flatnonzero(doubts.broken)}
    assert reasons[("12", 1)] == "the piece ends here: no route within 3,000 m"
    assert reasons[("12", 2)] == "a piece begins here: no route within 3,000 m"
    assert reasons[("15", 1)] == "the piece ends here: no edge in reach" and len(reasons) == 4
    assert np.array_equal(doubts.small, points["margin"] < 3000)
    assert doubts.far.sum() == 1 and doubts.lines[0] == "positions without an edge: 1 of 23 (4.3 %)"
    assert doubts.lines[1].startswith("pieces in doubt: 5 of 8 ")
    everything = doubts_of(matches, 1e9)
    assert everything.edge.sum() > 0.5 * len(matches.edges) and not doubts_of(matches, 0).edge.any()
    worst = everything.places[0]
    assert worst["positions"] == max(place["positions"] for place in everything.places)
    assert 2 <= len(everything.places) <= 20


def test_a_gap_of_the_program_is_a_reason(top: Path, tmp_path: Path) -> None:
    """The tables of a match that the program itself split at gaps."""
    (tmp_path / "match.txt").write_bytes((top / "examples" / "match.txt").read_bytes())
    files = [str(top / "examples" / name) for name in ("network.csv", "traces.csv")]
    assert main(["tables", *files, str(tmp_path / "match.txt"), "--into", str(tmp_path / "out"), "--", "--gap", "120"]) == 0
    assert main(["map", str(tmp_path / "out"), "--into", str(tmp_path / "map.html")]) == 0
    about, arrays, candidates = opened((tmp_path / "map.html").read_text())
    said = [about["texts"][number] for number in arrays["reason"][arrays["flags"] & 4 > 0]]
    assert "the piece ends here: gap of more than 120 s" in said
    assert len(candidates["first"]) == 24 and candidates["chosen"].sum() == 22


def test_the_page_has_what_the_match_has(top: Path) -> None:
    matches = example(top)
    about, arrays, candidates = opened(matches.explore(title="A <b> & \"c\"").html)
    points = matches.points.sort_values(["id", "trace", "point"], kind="stable")
    assert about["figures"] == {"positions": 23, "drives": 6, "vehicles": 5} and about["begin"] == BEGIN
    assert arrays["row"].tolist() == points.index.tolist()
    assert np.allclose(arrays["xy"].reshape(-1, 2) / 100, points[["x", "y"]])
    on = points["edge"].notna().to_numpy()
    onto = np.stack([points.geometry.x, points.geometry.y], axis=1)
    assert np.allclose(arrays["onto"].reshape(-1, 2)[on] / 100, onto[on], atol=0.01)
    assert arrays["edge"][on].tolist() == points["edge"][on].tolist()
    assert np.array_equal(arrays["margin"], points["margin"], equal_nan=True)
    assert (arrays["flags"] & 1 > 0).sum() == 22 and (arrays["flags"] & 8 > 0).sum() == 1
    assert len(arrays["edgeFirst"]) == len(matches.edges) + 1
    assert len(arrays["networkFirst"]) - 1 == 18  # streets of the example: 16 with two directions, 2 with one
    assert candidates["first"][-1] == len(candidates["edge"]) and candidates["chosen"].sum() == 22
    chosen = candidates["chosen"] > 0
    assert candidates["edge"][chosen].tolist() == points["edge"][on].tolist()
    assert candidates["total"][chosen].tolist() == arrays["pieceCost"][on].tolist()
    rest = candidates["total"] < 0
    assert (candidates["total"][~rest] >= np.repeat(arrays["pieceCost"], np.diff(candidates["first"]))[~rest]).all()


def test_the_sums_of_a_best_sequence_are_the_cost_of_the_piece(top: Path) -> None:
    _, arrays, candidates = opened(example(top).explore().html)
    chosen = candidates["chosen"] > 0
    position = np.repeat(np.arange(23), np.diff(candidates["first"]))[chosen]
    spent = (candidates["emission"] + candidates["transition"])[chosen]
    for drive, piece in {(d, p) for d, p in zip(arrays["drive"].tolist(), arrays["piece"].tolist()) if p}:
        some = (arrays["drive"][position] == drive) & (arrays["piece"][position] == piece)
        assert spent[some].sum() == arrays["pieceCost"][position[some]][0]


def test_a_page_asks_no_network_and_takes_any_text(top: Path) -> None:
    html = example(top).explore(title="</title><script>alert(1)</script>").html
    assert "<script>alert" not in html and "&lt;script&gt;alert" in html
    assert "default-src 'none'" in html and "connect-src" not in html
    assert not re.search(r'<(?:script|link|img|iframe)[^>]*(?:src|href)="?(?:https?:)?//', html)
    assert not re.search(r"url\((?!#)", html)
    positions = pd.DataFrame({"vehicle": ["</script><img src=x>\u2028"] * 2, "x": [10.0, 30.0], "y": [0.0, 0.0]})
    read = fmm.read_positions(positions, crs="metres")
    html = fmm.match(top / "examples" / "network.csv", read, options=fmm.Options()).explore().html
    assert "</script><img" not in html and "\u2028" not in html
    assert opened(html)[0]["texts"].count("</script><img src=x>\u2028") == 1


def test_places_are_those_of_the_projection(top: Path) -> None:
    matches = example(top, crs="EPSG:32632")
    page = matches.explore(tiles="https://tile.example.org/{z}/{x}/{y}.png")
    about, arrays, _ = opened(page.html)
    assert about["mercator"] and "img-src data: https://tile.example.org" in page.html
    import pyproj
    measured = matches.points.loc[arrays["row"], ["x", "y"]].T.to_numpy()
    there = pyproj.Transformer.from_crs(32632, 3857, always_xy=True).transform(*measured)
    assert np.allclose(arrays["xy"].reshape(-1, 2).T / 100, there, atol=0.01)
    with pytest.raises(OptionError, match="not known"):
        example(top).explore(tiles="https://tile.example.org/{z}/{x}/{y}.png")
    with pytest.raises(OptionError, match="address of tiles"):
        matches.explore(tiles="https://tile.example.org/'; script-src *")
    assert Plane(True).places(np.array([[9.0, 90.0], [np.nan, 5.0], [9.0, 54.0]]), 4326)[:, 0].tolist()[:2] == [NOWHERE, NOWHERE]


def test_a_map_without_the_network_says_so(top: Path, tmp_path: Path, capsys: pytest.CaptureFixture[str]) -> None:
    network = tmp_path / "network.csv"
    network.write_bytes((top / "examples" / "network.csv").read_bytes())
    positions = pd.DataFrame({"vehicle": ["a", "a"], "x": [10.0, 60.0], "y": [1.0, 1.0]})
    read = fmm.read_positions(positions, crs="metres")
    fmm.match(network, read, options=fmm.Options()).to_file(tmp_path / "result.gpkg")
    words = ["map", str(tmp_path / "result.gpkg"), "--into", str(tmp_path / "map.html")]
    assert main(words) == 0 and capsys.readouterr().err == ""
    whole = opened((tmp_path / "map.html").read_text())
    network.rename(tmp_path / "moved.csv")
    assert main(words) == 0
    assert "note: no margins and no candidates" in capsys.readouterr().err
    about, arrays, candidates = opened((tmp_path / "map.html").read_text())
    assert about["notes"][0].startswith("no margins and no candidates") and not candidates and not about["margins"]
    assert main([*words, "--margins"]) == 1 and "is not there: give its file" in capsys.readouterr().err
    assert main([*words, "--network", str(tmp_path / "moved.csv")]) == 0
    again = opened((tmp_path / "map.html").read_text())
    assert all(np.array_equal(again[2][name], whole[2][name]) for name in whole[2])
    assert main([*words, "--limt", "3"]) == 2 and main(["map", str(tmp_path / "no.gpkg"), "--into", "x.html"]) == 1


def test_equal_matches_have_equal_pages(top: Path) -> None:
    assert example(top).explore().html == example(top).explore().html
    assert "srcdoc" in example(top).explore(margins=False)._repr_html_()


def test_the_programs_of_the_page_are_sound(top: Path) -> None:
    """Node reads them, if it is there."""
    node = subprocess.run(["sh", "-c", "command -v node"], capture_output=True, text=True, check=False).stdout.strip()
    if not node:
        pytest.skip("the syntax of the page's programs, since there is no node")
    html = example(top).explore(margins=False).html
    program = html.rpartition("<script>")[2].partition("</script>")[0]
    assert element(html, "about").count("<") == 0
    assert subprocess.run([node, "--check", "-"], input=program, text=True, check=False).returncode == 0


def test_the_picture_of_the_readme_is_current(top: Path) -> None:
    """tools/map_picture makes it again."""
    with forks.python() as program:
        done = subprocess.run([top / "tools" / "map_picture", "--check"], capture_output=True, text=True, check=False,
                              env={**os.environ, "FMM_PYTHON": program})
    assert done.returncode == 0, done.stderr
