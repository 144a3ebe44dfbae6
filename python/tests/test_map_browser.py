"""The map in a browser: Chromium opens the file without a network, clicks, filters, and counts what is drawn."""
from __future__ import annotations

import time
from pathlib import Path
from typing import Any, Callable

import pytest
from maps import example

PATIENCE = 60  # seconds, on a machine that does much else


@pytest.fixture(scope="module")
def address(tmp_path_factory: Any) -> str:
    path = tmp_path_factory.mktemp("map") / "map.html"
    example(Path(__file__).resolve().parents[2]).explore(title="Example").save(path)
    return path.as_uri()


@pytest.fixture
def page(browser: Any, address: str) -> Any:
    browser.get(address)
    wait(lambda: browser.execute_script("return Boolean(window.fmm && fmm.ready)"))
    assert browser.execute_script("return fmm.fault || null") is None
    yield browser
    assert browser.get_log("browser") == []  # no error, and nothing that the policy refused


def wait(condition: Callable[[], Any]) -> None:
    end = time.monotonic() + PATIENCE
    while not condition():
        assert time.monotonic() < end, "the page did not get there in time"
        time.sleep(0.05)


def drawn(page: Any) -> Any:
    """The counts of the next frame."""
    page.execute_script("window.before = fmm.frames; fmm.redraw()")
    wait(lambda: page.execute_script("return fmm.frames > window.before"))
    return page.execute_script("return fmm.drawn")


def element(page: Any, name: str) -> Any:
    return page.find_element("id", name)


def test_everything_is_drawn(page: Any) -> None:
    counts = drawn(page)
    assert counts["positions"] == 23 and counts["matched"] == 22 and counts["network"] == 18
    assert counts["routes"] == page.execute_script("return fmm.data.edgeDrive.length")
    assert counts["doubtful"] == page.execute_script(
        "return fmm.data.flags.reduce((n, f) => n + (f & 2 ? 1 : 0) + (f & 4 ? 1 : 0) + (f & 8 ? 1 : 0), 0)")
    assert element(page, "figures").text == "5 vehicles, 6 drives, 23 positions"
    assert "positions without an edge: 1 of 23 (4.3 %)" in element(page, "report").text


def test_pixels_have_the_colours_of_what_is_drawn(page: Any) -> None:
    """Along the edge that vehicle 7 drove the canvas has the colour of this vehicle."""
    pixel = page.execute_script("""
        const drive = fmm.drives.find((one) => one.vehicle === "7"), xy = fmm.data.edgeXy;
        const first = 2 * fmm.data.edgeFirst[drive.edges[1]];
        const place = [0, 1].map((i) => (xy[first + i] + xy[first + i + 2]) / 200);
        const point = fmm.map.latLngToLayerPoint([place[1] + 12, place[0]]).subtract(fmm.layer._bounds.min);
        const ratio = window.devicePixelRatio, context = fmm.layer._context, found = [];
        const row = context.getImageData(Math.round(ratio * point.x) - 3, Math.round(ratio * point.y), 7, 1).data;
        for (let i = 0; i < 28; i += 4) found.push("#" + [0, 1, 2].map((j) => row[i + j].toString(16).padStart(2, "0")).join(""));
        return found.includes(fmm.colours.palette[drive.colour % 7]);""")
    assert pixel is True


def test_kinds_are_shown_and_hidden(page: Any) -> None:
    for kind in ("network", "routes", "matched", "positions", "doubtful", "lines"):
        assert drawn(page)[kind] > 0
        element(page, f"show-{kind}").click()
        assert drawn(page)[kind] == 0


def test_search_and_one_drive(page: Any) -> None:
    search = element(page, "search")
    search.send_keys("20")
    assert len(page.find_elements("css selector", "#drives button")) == 1
    page.find_element("css selector", "#drives button").click()
    counts = drawn(page)
    assert counts["positions"] == counts["matched"] == 3
    assert page.find_element("css selector", "#drives button").get_attribute("aria-pressed") == "true"
    search.clear()
    search.send_keys("nobody")
    assert element(page, "found").text == "0 vehicles, 0 drives"
    element(page, "all").click()
    assert drawn(page)["positions"] == 23


def test_a_vehicle_with_several_drives(page: Any) -> None:
    element(page, "search").send_keys("8")
    entries = page.find_elements("css selector", "#drives button")
    assert [entry.get_attribute("class") for entry in entries] == ["vehicle", "drive", "drive"]
    entries[2].click()
    assert drawn(page)["positions"] == 2
    page.find_elements("css selector", "#drives button")[0].click()
    assert drawn(page)["positions"] == 5


def test_the_time_filter(page: Any) -> None:
    page.execute_script("""
        document.getElementById("to").value = 100;
        document.getElementById("to").dispatchEvent(new Event("input"));""")
    shown = drawn(page)["positions"]
    expected = page.execute_script("return [...fmm.data.time].filter((t) => t <= fmm.panel.last / 10).length")
    assert 0 < shown == expected < 23
    assert element(page, "to-text").text.startswith("2023-11-14 22:1")


def test_colours_have_a_legend(page: Any) -> None:
    for mode, unit in (("speed", "km/h"), ("distance", "m")):
        page.execute_script("""
            const colour = document.getElementById("colour");
            colour.value = arguments[0];
            colour.dispatchEvent(new Event("change"));""", mode)
        rows = [row.text for row in page.find_elements("css selector", "#legend li")]
        assert len(rows) == 6 and rows[0].startswith("below") and rows[0].endswith(unit) and rows[-1] == "unknown"
        assert drawn(page)["positions"] == 23


def test_a_click_shows_the_candidates(page: Any) -> None:
    """The first position of trace 8: what the certificate has of it."""
    from selenium.webdriver import ActionChains
    place = page.execute_script("""
        const p = fmm.drives.find((drive) => drive.vehicle === "8").first + 1;
        fmm.map.setView([fmm.data.xy[2 * p + 1] / 100, fmm.data.xy[2 * p] / 100], 1, { animate: false });
        const box = document.getElementById("map").getBoundingClientRect();
        return [box.left + box.width / 2, box.top + box.height / 2];""")
    drawn(page)
    actions = ActionChains(page)
    actions.w3c_actions.pointer_action.move_to_location(round(place[0]), round(place[1]))
    actions.click().perform()
    wait(lambda: page.find_elements("css selector", "#details tbody tr"))
    details = element(page, "details")
    rows = [[cell.text for cell in row.find_elements("css selector", "td")]
            for row in details.find_elements("css selector", "tbody tr")]
    assert "8, position 2 of 3" in details.text and "piece 1 costs 297 in all" in details.text
    assert rows[0] == ["0", "edge 71", "2.6 m", "34", "0", "17", "297", "chosen"] and len(rows) == 4
    assert rows[1][1] == "edge 72" and int(rows[1][7].replace(",", "")) > 10_000
    assert "margin " in details.text and "more the best sequence over another road costs" in details.text
    page.find_element("css selector", "#details .close").click()
    assert not details.is_displayed()


def test_worst_places_and_keys(page: Any) -> None:
    from selenium.webdriver.common.keys import Keys
    page.find_element("css selector", "#places button").click()
    wait(lambda: element(page, "details").is_displayed())
    body = page.find_element("tag name", "body")
    element(page, "map").send_keys(Keys.ESCAPE)
    assert not element(page, "details").is_displayed()
    seen = []
    for _ in range(3):
        element(page, "map").send_keys("d")
        wait(lambda: page.execute_script("return fmm.details.position") not in seen)
        seen.append(page.execute_script("return fmm.details.position"))
    assert seen == sorted(set(seen)) and page.execute_script("return fmm.data.flags[arguments[0]] & 14", seen[0]) > 0
    body.send_keys("/")
    assert page.switch_to.active_element.get_attribute("id") == "search"


def test_a_drive_is_played(page: Any) -> None:
    element(page, "search").send_keys("7")
    page.find_element("css selector", "#drives button").click()
    page.execute_script("document.getElementById('rate').value = '1'")
    element(page, "play").click()
    wait(lambda: page.execute_script("return fmm.player.at > 0.2"))
    element(page, "play").click()
    assert not page.execute_script("return fmm.player.playing")
    # at the end of the drive the marker is at the place of the last position
    away = page.execute_script("""
        const moment = document.getElementById("moment");
        moment.value = 1000;
        moment.dispatchEvent(new Event("input"));
        const p = fmm.player.drive.after - 1, there = fmm.player.marker.getLatLng();
        return Math.hypot(there.lng - fmm.data.onto[2 * p] / 100, there.lat - fmm.data.onto[2 * p + 1] / 100);""")
    assert away < 0.1 and element(page, "clock").text.startswith("2023-11-14 22:14")


def test_names_for_screen_readers_and_a_phone(page: Any) -> None:
    unnamed = page.execute_script("""
        return [...document.querySelectorAll("button, input, select, [role]")].filter((e) => !(e.textContent.trim()
          || e.labels?.length || e.getAttribute("aria-label") || e.getAttribute("aria-labelledby") || e.title || e.hidden
          || ["status", "alert", "presentation"].includes(e.getAttribute("role")))).map((e) => e.outerHTML);""")
    assert unnamed == []
    page.set_window_size(500, 800)
    page.refresh()
    wait(lambda: page.execute_script("return Boolean(window.fmm && fmm.ready)"))
    assert not element(page, "panel").is_displayed()
    element(page, "toggle").click()
    assert element(page, "panel").is_displayed() and drawn(page)["positions"] == 23
    assert page.execute_script("return document.documentElement.scrollWidth <= window.innerWidth")


def test_frames_are_counted_while_the_map_moves(page: Any) -> None:
    middle = page.execute_script("return fmm.map.getCenter().lng")
    found = page.execute_async_script("fmm.measure(0.5).then(arguments[0])")
    assert found["frames"] > 0 and found["seconds"] >= 0.4 and found["longest"] > 0
    assert page.execute_script("return fmm.map.getCenter().lng") != middle
