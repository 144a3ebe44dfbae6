"""The plugin and its provider of algorithms."""
from __future__ import annotations

from qgis.core import QgsApplication, QgsProcessingProvider

from .match import Match
from .network import Network


class Provider(QgsProcessingProvider):
    """The group FMM of the toolbox."""

    def loadAlgorithms(self) -> None:
        for algorithm in (Network(), Match()):
            self.addAlgorithm(algorithm)

    def id(self) -> str:
        return "fmm"

    def name(self) -> str:
        return "FMM"


class Plugin:
    """Adds the provider to QGIS, and takes it away."""

    def __init__(self) -> None:
        self.provider: Provider | None = None

    def initProcessing(self) -> None:
        self.provider = Provider()
        QgsApplication.processingRegistry().addProvider(self.provider)

    def initGui(self) -> None:
        self.initProcessing()

    def unload(self) -> None:
        QgsApplication.processingRegistry().removeProvider(self.provider)
