"""The algorithm that matches positions."""
from __future__ import annotations

from pathlib import Path
from typing import Any

from qgis.core import (
    QgsProcessing,
    QgsProcessingAlgorithm,
    QgsProcessingContext,
    QgsProcessingLayerPostProcessorInterface,
    QgsProcessingOutputVectorLayer,
    QgsProcessingParameterFeatureSource,
    QgsProcessingParameterField,
    QgsProcessingParameterFile,
    QgsProcessingParameterFolderDestination,
    QgsProcessingParameterNumber,
    QgsProcessingUtils,
    QgsVectorFileWriter,
    QgsVectorLayer,
)

from .commands import run

OPTIONS = {
    "RADIUS": ("Radius: greatest distance of a road (m)", 0.01, 1000),
    "SIGMA": ("Sigma: accuracy of positions (m)", 0.01, 1000),
    "BETA": ("Beta: usual detour of a route (m)", 0.01, 10_000),
    "BOUND": ("Bound: longest route between two positions (m)", 0, 100_000),
    "BACK": ("Back: how far a standing vehicle may move back (m)", 0, 1000),
    "GAP": ("Gap: a longer pause ends a drive (s)", 0, 4e9),
    "THIN": ("Thin: match only positions so far apart (m)", 0, 10_000),
}
LAYERS = ("points", "routes", "edges")
STYLE = Path(__file__).with_name("points.qml")
HELP = """Finds the roads that vehicles drove.

The network is the NETWORK.csv of the first algorithm. Options that are left empty are chosen from the positions; report.txt in
the folder of results has the reasons. The layer of points shows positions without a road, and those far from theirs, in colours
of their own."""


class Match(QgsProcessingAlgorithm):
    """`fmm run` with a network."""

    def createInstance(self) -> Match:
        return Match()

    def name(self) -> str:
        return "match"

    def displayName(self) -> str:
        return "Match positions"

    def shortHelpString(self) -> str:
        return HELP

    def initAlgorithm(self, configuration: Any = None) -> None:
        add = self.addParameter
        add(QgsProcessingParameterFile("NETWORK", "Network", fileFilter="Network (*.csv)"))
        add(QgsProcessingParameterFeatureSource("POSITIONS", "Positions", [QgsProcessing.TypeVectorPoint]))
        for name, text in (("ID", "Column of the vehicle"), ("TIME", "Column of the time")):
            add(QgsProcessingParameterField(name, text, parentLayerParameterName="POSITIONS", optional=True))
        for name, (text, least, most) in OPTIONS.items():
            add(QgsProcessingParameterNumber(name, text, QgsProcessingParameterNumber.Double, None, True, least, most))
        add(QgsProcessingParameterFolderDestination("FOLDER", "Results"))
        for layer in LAYERS:
            self.addOutput(QgsProcessingOutputVectorLayer(layer.upper(), f"Matched {layer}"))

    def processAlgorithm(self, parameters: Any, context: Any, feedback: Any) -> dict[str, Any]:
        folder = Path(self.parameterAsString(parameters, "FOLDER", context))
        folder.mkdir(parents=True, exist_ok=True)
        words = ["--into", str(folder)]
        for name in ("ID", "TIME"):
            value = self.parameterAsString(parameters, name, context)
            words += [f"--{name.lower()}={value}"] if value else []
        for name in OPTIONS:
            if parameters.get(name) is not None:
                words.append(f"--{name.lower()}={self.parameterAsDouble(parameters, name, context):g}")
        positions = self.written(parameters, context, feedback)
        run(["run", *words, "--", self.parameterAsFile(parameters, "NETWORK", context), positions], feedback)
        feedback.setProgress(100)
        found = {layer: f"{folder / 'result.gpkg'}|layername={layer}" for layer in LAYERS}
        for layer, path in found.items():
            load(layer, path, context)
        return {"FOLDER": str(folder), **{layer.upper(): path for layer, path in found.items()}}

    def written(self, parameters: Any, context: Any, feedback: Any) -> str:
        """The path of the positions as a file with one layer, which has the selected and the unsaved features too."""
        source = self.parameterAsSource(parameters, "POSITIONS", context)
        options = QgsVectorFileWriter.SaveVectorOptions()
        options.driverName, options.layerName = "GPKG", "positions"
        path = QgsProcessingUtils.generateTempFilename("positions.gpkg")
        writer = QgsVectorFileWriter.create(path, source.fields(), source.wkbType(), source.sourceCrs(),
                                            context.transformContext(), options)
        for feature in source.getFeatures():
            writer.addFeature(feature)
        del writer
        return path


class Styled(QgsProcessingLayerPostProcessorInterface):
    """Gives the layer of points its style."""

    kept: list[Styled] = []  # QGIS does not hold a reference

    def postProcessLayer(self, layer: QgsVectorLayer, context: Any, feedback: Any) -> None:
        layer.loadNamedStyle(str(STYLE))
        layer.triggerRepaint()


def load(name: str, path: str, context: Any) -> None:
    """Has a layer added to the project when the algorithm has ended."""
    if context.project() is None:
        return
    details = QgsProcessingContext.LayerDetails(f"Matched {name}", context.project(), name.upper())
    if name == "points":
        Styled.kept.append(Styled())
        details.setPostProcessor(Styled.kept[-1])
    context.addLayerToLoadOnCompletion(path, details)
