"""The open board's copper, drill files and netlist in a folder, with the settings that fit each other.

All count from the drill/place origin, as KiCad's IPC-D-356 does. Zones are as they are filled now. It uses what `pcbnew` documents
of versions 6 to 9, and asks for nothing that one of them lacks.
"""
import os
from typing import Any, List

import pcbnew

# Settings of the plot and their values; what a version does not have it does as it is set here.
SETTINGS = (
    ("SetUseAuxOrigin", True),
    ("SetUseGerberX2format", True),
    ("SetIncludeGerberNetlistInfo", True),
    ("SetDisableGerberMacros", False),
    ("SetGerberPrecision", 6),
    ("SetUseGerberProtelExtensions", False),
    ("SetCreateGerberJobFile", False),
    ("SetPlotFrameRef", False),
    ("SetMirror", False),
    ("SetNegative", False),
    ("SetScale", 1.0),
    ("SetAutoScale", False),
    ("SetExcludeEdgeLayer", True),
)
# No mark of a hole is plotted into a pad.
NO_MARKS = 0


def set_up(options: Any, folder: str) -> None:
    options.SetOutputDirectory(folder)
    for name, value in SETTINGS:
        if hasattr(options, name):
            getattr(options, name)(value)
    options.SetDrillMarksType(getattr(pcbnew, "DRILL_MARKS_NO_DRILL_SHAPE", NO_MARKS))


def layers(board: Any) -> List[int]:
    """The copper layers from the top, and the board's edge."""
    return [*board.GetEnabledLayers().CuStack(), pcbnew.Edge_Cuts]


def plot(board: Any, folder: str) -> None:
    """Writes a Gerber file of each layer."""
    controller = pcbnew.PLOT_CONTROLLER(board)
    set_up(controller.GetPlotOptions(), folder)
    for layer in layers(board):
        controller.SetLayer(layer)
        name = board.GetLayerName(layer).replace(".", "_")
        if not controller.OpenPlotfile(name, pcbnew.PLOT_FORMAT_GERBER, name):
            raise OSError(f"{folder}: KiCad cannot write the layer {name}")
        controller.PlotLayer()
        controller.ClosePlot()


def drill(board: Any, folder: str) -> None:
    """Writes the drill files, plated and unplated holes apart."""
    writer = pcbnew.EXCELLON_WRITER(board)
    writer.SetOptions(False, False, board.GetDesignSettings().GetAuxOrigin(), False)
    writer.SetFormat(True, pcbnew.EXCELLON_WRITER.DECIMAL_FORMAT)
    writer.CreateDrillandMapFilesSet(folder, True, False)


def export(board: Any, folder: str) -> None:
    """Writes all that boardnet reads of a board into a folder."""
    plot(board, folder)
    drill(board, folder)
    pcbnew.IPC356D_WRITER(board).Write(os.path.join(folder, "netlist.d356"))
