"""The button: exports the open board into a new scratch folder, has it judged, and opens the page."""
import os
import tempfile
import webbrowser

import pcbnew
import wx

from . import export, judge

TITLE = "boardnet"


def told(text: str, is_fault: bool) -> None:
    wx.MessageBox(text, TITLE, wx.OK | (wx.ICON_ERROR if is_fault else wx.ICON_INFORMATION))


def run() -> None:
    """The folder stays, since the page and the files in it are what the answer is about."""
    folder = tempfile.mkdtemp(prefix="boardnet-kicad-")
    with wx.BusyCursor():
        export.export(pcbnew.GetBoard(), folder)
        judged = judge.judge(folder)
    if judged.page:
        webbrowser.open("file://" + judged.page)
    told(f"{judge.message(judged)}\n\n{folder}", judged.status != 0)


class Button(pcbnew.ActionPlugin):
    """What KiCad calls; the names are its own."""

    def defaults(self) -> None:
        self.name = "boardnet: does the copper join what the netlist joins?"
        self.category = "Verification"
        self.description = "Exports copper, drills and netlist, runs `boardnet show` and opens its page"
        self.show_toolbar_button = True
        self.icon_file_name = os.path.join(os.path.dirname(__file__), "icon.png")

    def Run(self) -> None:
        try:
            run()
        except Exception as fault:  # a fault that left here would be lost in KiCad's console
            told(f"Nothing was judged: {fault}", True)
