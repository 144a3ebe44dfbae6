"""The plugin of QGIS, as `qgis_process` and a QGIS of this process run it. Left out where QGIS is missing."""
from __future__ import annotations

import configparser
import json
import os
import shutil
import subprocess
import xml.etree.ElementTree as xml
from collections.abc import Iterator
from pathlib import Path
from typing import Any, Callable

import forks
import geopandas
import pytest
from services import TOP, alive

import fmm

SMALL = TOP / "recipes" / "small"
PLUGIN = TOP / "python" / "qgis" / "fmm_qgis"


# Debian's wrapper qgis_process hands over an option of qgis that qgis_process does not have.
PROGRAM = shutil.which("qgis_process.bin") or shutil.which("qgis_process")


Process = Callable[..., "subprocess.CompletedProcess[str]"]


@pytest.fixture(scope="module", autouse=True)
def python() -> Iterator[None]:
    """The commands that the plugin starts need no new Python each."""
    with forks.python() as program, pytest.MonkeyPatch.context() as patch:
        patch.setenv("FMM_PYTHON", program)
        yield


@pytest.fixture(scope="module")
def process(tmp_path_factory: pytest.TempPathFactory) -> Process:
    """`qgis_process` with a profile that has the plugin. Each start of QGIS takes seconds."""
    if PROGRAM is None:
        pytest.skip("the plugin of QGIS, since there is no qgis_process")
    folder = tmp_path_factory.mktemp("home")
    environment = {**os.environ, "QT_QPA_PLATFORM": "offscreen", "QGIS_PLUGINPATH": str(PLUGIN.parent), "HOME": str(folder),
                   "QGIS_CUSTOM_CONFIG_PATH": str(folder / "profile"), "XDG_RUNTIME_DIR": str(folder),
                   "PATH": f"/usr/bin:{os.environ['PATH']}"}  # QGIS takes its modules from beside the first python3
    environment.pop("PYTHONPATH", None)
    settings = folder / "profile" / "profiles" / "default" / "QGIS" / "QGIS3.ini"
    settings.parent.mkdir(parents=True)
    settings.write_text("[PythonPlugins]\nfmm_qgis=true\n")  # what `qgis_process plugins enable fmm_qgis` writes
    return lambda *words: subprocess.run([PROGRAM, *words], env=environment, capture_output=True, text=True)


Algorithm = Callable[..., "tuple[dict[str, Any], bool, str]"]


@pytest.fixture(scope="module")
def algorithm(tmp_path_factory: pytest.TempPathFactory) -> Iterator[Algorithm]:
    """Runs an algorithm of the plugin in a QGIS of this process, whose start takes a third of that of `qgis_process`. It gives
    the results, whether the algorithm succeeded, and its log."""
    core = pytest.importorskip("qgis.core", reason="the plugin of QGIS, since there is no python3-qgis")
    with pytest.MonkeyPatch.context() as patch:
        patch.setenv("QT_QPA_PLATFORM", "offscreen")
        patch.setenv("QGIS_CUSTOM_CONFIG_PATH", str(tmp_path_factory.mktemp("config")))
        patch.syspath_prepend(str(PLUGIN.parent))
        application = core.QgsApplication([], False)
        application.initQgis()
        from fmm_qgis.plugin import Plugin  # type: ignore[import]
        plugin = Plugin()
        plugin.initProcessing()

        def run(name: str, **parameters: Any) -> tuple[dict[str, Any], bool, str]:
            feedback = core.QgsProcessingFeedback(False)
            found = core.QgsApplication.processingRegistry().algorithmById(name)
            results, good = found.run(parameters, core.QgsProcessingContext(), feedback)
            return results, good, feedback.textLog()

        yield run
        plugin.unload()
        application.exitQgis()


def test_a_network_and_a_match(algorithm: Algorithm, process: Process, tmp_path: Path) -> None:
    """The match is run by `qgis_process`, as a user without a screen runs it."""
    network = tmp_path / "network.csv"
    made, good, log = algorithm("fmm:network", EXTRACT=str(SMALL / "village.osm"), NETWORK=str(network))
    assert good and made["NETWORK"] == str(network) and fmm.Network.open(network).edge_count == 26, log
    positions = fmm.read_positions(SMALL / "fleet.csv").frame
    points = geopandas.points_from_xy(positions["x"], positions["y"])
    table = geopandas.GeoDataFrame({"id": positions["id"], "time": positions["time"]}, geometry=points, crs=4326)
    table.to_file(tmp_path / "fleet.gpkg", driver="GPKG")
    done = process("run", "fmm:match", "--json", f"--NETWORK={network}", f"--POSITIONS={tmp_path / 'fleet.gpkg'}",
                   "--ID=id", "--TIME=time", "--SIGMA=12", "--GAP=300", f"--FOLDER={tmp_path / 'out'}")
    assert done.returncode == 0, done.stdout + done.stderr
    found = json.loads(done.stdout[done.stdout.index("{"):])["results"]
    path, _, layer = found["ROUTES"].partition("|layername=")
    routes = geopandas.read_file(path, layer=layer)
    matches = fmm.match(network, fmm.read_positions(tmp_path / "fleet.gpkg", id="id", time="time"), sigma=12, gap=300)
    assert routes["cost"].tolist() == matches.routes["cost"].tolist()
    assert routes["edges"].tolist() == matches.routes["edges"].tolist()


def test_faults_are_in_the_log(algorithm: Algorithm, tmp_path: Path) -> None:
    wrong = tmp_path / "wrong.osm"
    wrong.write_text("<osm></osm>\n")
    _, good, log = algorithm("fmm:network", EXTRACT=str(wrong), NETWORK=str(tmp_path / "n.csv"))
    assert not good and "wrong.osm" in log and "ended with status 1" in log
    assert not (tmp_path / "n.csv").exists()
    _, good, log = algorithm("fmm:network", NETWORK=str(tmp_path / "n.csv"))
    assert not good and "an extract or a layer" in log


def test_the_plugin_says_its_version() -> None:
    facts = configparser.ConfigParser()
    facts.read(PLUGIN / "metadata.txt")
    assert facts["general"]["version"] == fmm.__version__


def test_the_style_has_a_symbol_for_each_rule() -> None:
    style = xml.parse(PLUGIN / "points.qml").getroot()
    symbols = {symbol.get("name") for symbol in style.iter("symbol")}
    assert {rule.get("symbol") for rule in style.iter("rule")} == symbols


def test_a_network_from_a_layer(algorithm: Algorithm, tmp_path: Path) -> None:
    network = fmm.Network.from_osm(SMALL / "village.osm")
    streets = network.edges[network.edges["direction"] == "forward"].drop(columns=["from_node", "to_node"])
    streets.assign(way="").to_file(tmp_path / "roads.gpkg", driver="GPKG")
    _, good, log = algorithm("fmm:network", LAYER=str(tmp_path / "roads.gpkg"), ONEWAY="oneway", FORWARD="1,True",
                             NETWORK=str(tmp_path / "n.csv"))
    assert good, log
    made = fmm.Network.open(tmp_path / "n.csv")
    assert made.edge_count >= len(streets) and made.projection.matches(network.projection)


class Cancelled:
    """The feedback of an algorithm that the user cancels after its first message."""

    def __init__(self) -> None:
        self.said: list[str] = []

    def isCanceled(self) -> bool:
        return len(self.said) > 1

    def pushCommandInfo(self, text: str) -> None:
        self.said.append(text)

    pushInfo = pushWarning = reportError = pushCommandInfo

    def setProgress(self, share: float) -> None:
        self.said.append(f"{share:g} %")

    setProgressText = pushCommandInfo


def test_a_cancelled_algorithm_ends_its_command(monkeypatch: pytest.MonkeyPatch, tmp_path: Path) -> None:
    core = pytest.importorskip("qgis.core")
    monkeypatch.syspath_prepend(str(PLUGIN.parent))
    from fmm_qgis import commands  # type: ignore[import]
    slow = tmp_path / "fmm"
    slow.write_text(f"#!/bin/sh\necho $$ > {tmp_path}/pid\necho begun\nexec sleep 60\n")
    slow.chmod(0o755)
    monkeypatch.setattr(commands, "command", lambda: str(slow))
    feedback = Cancelled()
    with pytest.raises(core.QgsProcessingException):
        commands.run(["run"], feedback)
    assert feedback.said == ["fmm run", "begun"] and not alive(int((tmp_path / "pid").read_text()))


def test_progress_moves(monkeypatch: pytest.MonkeyPatch, tmp_path: Path) -> None:
    pytest.importorskip("qgis.core")
    monkeypatch.syspath_prepend(str(PLUGIN.parent))
    from fmm_qgis import commands  # type: ignore[import]
    feedback = Cancelled()
    for line in (b"progress: match 0", b"progress: match 50", b"progress: a b.osm: ways", b"progress: margins 100", b"a line"):
        commands.show(line, feedback)
    assert feedback.said == ["match", "10 %", "match", "35 %", "a b.osm: ways", "margins", "95 %", "a line"]


def test_commands_say_their_progress_in_lines(tmp_path: Path) -> None:
    words = [str(TOP / "fmm"), "run", str(SMALL / "village.osm"), str(SMALL / "monday.gpx"), "--into", str(tmp_path / "out")]
    done = subprocess.run(words, env={**os.environ, "FMM_PROGRESS": "lines"}, capture_output=True, text=True)
    lines = [line for line in done.stderr.splitlines() if line.startswith("progress: ")]
    assert done.returncode == 0 and {"progress: match 0", "progress: margins 100"} <= set(lines), done.stderr
