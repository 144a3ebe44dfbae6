"""Chromium for tests: one for all of a process, since its start takes longer than most tests."""
from __future__ import annotations

import shutil
from collections.abc import Iterator
from pathlib import Path
from typing import Any

import pytest

CHROMIUM, DRIVER, LEAFLET = shutil.which("chromium"), shutil.which("chromedriver"), Path("/usr/share/javascript/leaflet")
WORDS = ("--headless=new", "--no-sandbox", "--disable-gpu", "--disable-dev-shm-usage",
         "--host-resolver-rules=MAP * ~NOTFOUND, EXCLUDE 127.0.0.1")


@pytest.fixture(scope="session")
def chromium() -> Iterator[Any]:
    selenium = pytest.importorskip("selenium.webdriver", reason="pages in a browser, since there is no python3-selenium")
    if not (CHROMIUM and DRIVER and LEAFLET.is_dir()):
        pytest.skip("pages in a browser, since chromium, chromium-driver or libjs-leaflet is not installed")
    from selenium.webdriver.chrome.service import Service  # type: ignore[import]
    options = selenium.ChromeOptions()
    options.binary_location = CHROMIUM
    for word in WORDS:
        options.add_argument(word)
    options.set_capability("goog:loggingPrefs", {"browser": "ALL"})
    driver = selenium.Chrome(options=options, service=Service(DRIVER))
    yield driver
    driver.quit()


@pytest.fixture
def browser(chromium: Any) -> Iterator[Any]:
    """Chromium without a window, with an empty page and an empty log. It reaches nothing but this machine."""
    chromium.get("about:blank")
    chromium.get_log("browser")
    chromium.set_window_size(1280, 900)
    yield chromium
    chromium.get("about:blank")
