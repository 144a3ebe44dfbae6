#!/usr/bin/env python3
"""map.py NETWORK TRACES [--crs CRS] [--positions N] [--into FILE]: how fast the map of a match opens and moves.

Matches the first N positions (100,000) of a trace file in centimetres, makes the map, opens it in Chromium without a window or a
graphics card, and pans it at some zooms. Prints the size of the file, the milliseconds to open it, and for each zoom the frames
a second, the longest frame, the milliseconds of JavaScript and of all work of the page's thread in a frame, and how long one
drawing of the map took. Chromium then also fills the pixels on the processor, in threads of its own, which a graphics card does
elsewhere. It needs chromium, chromium-driver and python3-selenium.
"""
import argparse
import sys
import tempfile
from pathlib import Path

import pandas as pd

TOP = Path(__file__).resolve().parents[1]
sys.path.insert(0, str(TOP / "python" / "src"))
import fmm  # noqa: E402


def made(args, path):
    """The map of the match, without margins."""
    network = fmm.Network.from_file(args.network, crs=args.crs)
    table = pd.read_csv(args.traces, nrows=args.positions)
    x, y = network.projection.to_crs(table["x"].to_numpy(), table["y"].to_numpy(), 4326)
    rows = pd.DataFrame({"id": table["trace"].astype(str), "lon": x, "lat": y})
    if "time" in table:
        rows["time"] = table["time"]
    with tempfile.NamedTemporaryFile("w", suffix=".csv") as file:
        rows.to_csv(file, index=False)
        file.flush()
        positions = fmm.read_positions(file.name)
    fmm.match(network, positions).explore(margins=False).save(path)


def browser():
    from selenium.webdriver import Chrome
    from selenium.webdriver.chrome.options import Options
    from selenium.webdriver.chrome.service import Service
    options = Options()
    for word in ("--headless=new", "--no-sandbox", "--disable-gpu", "--disable-dev-shm-usage", "--window-size=1280,900"):
        options.add_argument(word)
    driver = Chrome(options=options, service=Service("/usr/bin/chromedriver"))
    driver.set_page_load_timeout(600)
    driver.set_script_timeout(600)
    return driver


def spent(driver):
    """Milliseconds of JavaScript, and of all work of the page's thread."""
    found = {one["name"]: one["value"] for one in driver.execute_cdp_cmd("Performance.getMetrics", {})["metrics"]}
    return 1000 * found["ScriptDuration"], 1000 * found["TaskDuration"]


def measure(path):
    driver = browser()
    try:
        driver.execute_cdp_cmd("Performance.enable", {})
        driver.get(path.as_uri())
        opened = driver.execute_async_script(
            "const done = arguments[0];"
            "const look = () => window.fmm && fmm.ready ? done(fmm.milliseconds) : setTimeout(look, 20);"
            "look();")
        print(f"{path.stat().st_size / 1e6:.1f} MB, opened in {opened:.0f} ms", flush=True)
        for step in (0, 1, 1, 2):
            driver.execute_script(f"fmm.map.setZoom(fmm.map.getZoom() + {step}, {{animate: false}})")
            driver.execute_async_script("setTimeout(arguments[0], 1000)")
            before = spent(driver)
            found = driver.execute_async_script("fmm.measure(3).then(arguments[0])")
            script, task = ((now - then) / found["frames"] for now, then in zip(spent(driver), before))
            drawn = driver.execute_script("return fmm.drawn")
            print(f"{found['frames'] / found['seconds']:.0f} frames a second, longest {found['longest']:.0f} ms, a frame takes "
                  f"{script:.1f} ms of JavaScript and {task:.1f} in all, one drawing {found['drawing']:.0f} ms, "
                  f"{drawn['positions']} positions", flush=True)
    finally:
        driver.quit()


def main():
    parser = argparse.ArgumentParser(description=__doc__, formatter_class=argparse.RawDescriptionHelpFormatter)
    for name in ("network", "traces"):
        parser.add_argument(name)
    parser.add_argument("--crs", default="32N")
    parser.add_argument("--positions", type=int, default=100_000)
    parser.add_argument("--into", type=Path, help="where the map is kept")
    args = parser.parse_args()
    with tempfile.TemporaryDirectory() as folder:
        path = args.into or Path(folder) / "map.html"
        made(args, path)
        measure(path.resolve())


if __name__ == "__main__":
    main()
