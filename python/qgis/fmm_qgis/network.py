"""The algorithm that makes a network."""
from __future__ import annotations

from typing import Any

from qgis.core import (
    QgsProcessing,
    QgsProcessingAlgorithm,
    QgsProcessingException,
    QgsProcessingParameterCrs,
    QgsProcessingParameterEnum,
    QgsProcessingParameterField,
    QgsProcessingParameterFile,
    QgsProcessingParameterFileDestination,
    QgsProcessingParameterString,
    QgsProcessingParameterVectorLayer,
)

from .commands import run

PROFILES = ["car", "main", "bicycle", "foot"]
HELP = """Makes a network from an OpenStreetMap extract or from a layer of lines: one of the two.

The network is three files that belong together: NETWORK.csv, NETWORK.edges.csv and NETWORK.json. The log says what was left
out and why."""


class Network(QgsProcessingAlgorithm):
    """`fmm network`."""

    def createInstance(self) -> Network:
        return Network()

    def name(self) -> str:
        return "network"

    def displayName(self) -> str:
        return "Network from a layer or an extract"

    def shortHelpString(self) -> str:
        return HELP

    def initAlgorithm(self, configuration: Any = None) -> None:
        add = self.addParameter
        add(QgsProcessingParameterFile("EXTRACT", "OpenStreetMap extract", optional=True))
        add(QgsProcessingParameterEnum("PROFILE", "Whose streets, for an extract", PROFILES, defaultValue=0))
        add(QgsProcessingParameterVectorLayer("LAYER", "Layer of lines", [QgsProcessing.TypeVectorLine], optional=True))
        add(QgsProcessingParameterField("ONEWAY", "Column of the direction, for a layer", parentLayerParameterName="LAYER",
                                        optional=True))
        add(QgsProcessingParameterString("FORWARD", "Its values for open along the line only, with commas", optional=True))
        add(QgsProcessingParameterString("BACKWARD", "Its values for open against the line only", optional=True))
        add(QgsProcessingParameterCrs("CRS", "Projection (by default one that fits)", optional=True))
        add(QgsProcessingParameterFileDestination("NETWORK", "Network", "Network (*.csv)"))

    def processAlgorithm(self, parameters: Any, context: Any, feedback: Any) -> dict[str, Any]:
        extract = self.parameterAsFile(parameters, "EXTRACT", context)
        layer = self.parameterAsVectorLayer(parameters, "LAYER", context)
        if bool(extract) == bool(layer):
            raise QgsProcessingException("give an extract or a layer, and not both")
        words = ["--into", self.parameterAsFileOutput(parameters, "NETWORK", context)]
        if extract:
            words += ["--profile", PROFILES[self.parameterAsEnum(parameters, "PROFILE", context)], extract]
        else:
            for name in ("ONEWAY", "FORWARD", "BACKWARD"):
                value = self.parameterAsString(parameters, name, context)
                words += [f"--{name.lower()}={value}"] if value else []
            path, inner = self.parameterAsCompatibleSourceLayerPathAndLayerName(
                parameters, "LAYER", context, ["gpkg", "geojson", "shp"], "gpkg", feedback)
            words += [*([f"--layer={inner}"] if inner else []), path]
        crs = self.parameterAsCrs(parameters, "CRS", context)
        if crs.isValid():
            words[:0] = ["--crs", crs.authid() or crs.toWkt()]
        run(["network", *words], feedback)
        return {"NETWORK": words[words.index("--into") + 1]}
