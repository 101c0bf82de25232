"""Where several things stop a board, the line names the one that truly does, with all others behind."""
import os

from tests.fixtures import common

HEAD = "%FSLAX46Y46*%\n%MOMM*%\n%TF.FileFunction,Copper,L{},{}*%\n"
PLAIN = HEAD + "%ADD10C,1.0*%\nD10*\nX0Y0D03*\nX5000000Y0D03*\n"
# Copper that has bounds, an operation that has none, and what check takes.
TURNED = PLAIN + "%AMM*21,1,1.0,0.5,0,0,30*%\n%ADD11M*%\nD11*\nX9000000Y0D03*\n"
DRILL = "M48\n; #@! TF.FileFunction,Plated,1,2,PTH\nMETRIC\nT1C0.4\n%\nT1\nX0.0Y0.0\nX5.0Y0.0\nM30\n"
RECORD = "{:<38}A00X+{:06d}Y+000000\n"
NETLIST = "P  UNITS CUST 1\n" + RECORD.format("317A", 0) + RECORD.format("317B", 5000) + "999\n"


def board(top=PLAIN, bottom=PLAIN, netlist=NETLIST, **drills):
    files = {"T.gbr": top.format(1, "Top") + "M02*\n", "B.gbr": bottom.format(2, "Bot") + "M02*\n", "n.ipc": netlist}
    return {**files, **{f"{name}.drl": text for name, text in (drills or {"p": DRILL}).items()}}


class Obstacles(common.Case):
    def line(self, files):
        folder = self.path(f"board{len(os.listdir(self.scratch))}")
        for name, text in files.items():
            self.write(os.path.join(folder, name), text)
        show = os.path.join(common.TOOLS, "show")
        status, out, notes = self.run_words([show, folder, "-q"], environment={"BOARDNET": common.program()})
        return status, (out + notes).split("\n")[0].split(": ", 1)[1]

    def test_what_stops_a_board_comes_first(self):
        implied = DRILL.replace("X5.0", "X5")
        wrong = "drill 6 ImpliedDecimals at line 8, byte"
        macro = "T.gbr: Gerber 12 Macro at command 8, byte 99, which has bounds"
        for files, first, behind in [
            (board(top=TURNED, p=implied), f"p.drl: {wrong}", macro),
            (board(top=TURNED, p=implied, q=implied), f"p.drl: {wrong}", f"q.drl: {wrong} 69, {macro}"),
            (board(top=TURNED, bottom=PLAIN + "G91*\n"), "B.gbr: Gerber 9 Incremental at command 8, byte 98", macro),
            (board(top=TURNED + "G91*\n"), "T.gbr: Gerber 9 Incremental at command 13, byte 155", macro),
            (board(top=TURNED, netlist=NETLIST.replace("A00X+005", "Q00X+005")), "n.ipc: netlist ", macro),
            (board(p=implied, q=implied), f"p.drl: {wrong}", f"q.drl: {wrong} 69"),
            (board(top=PLAIN + "G91*\n", p=implied), "T.gbr: Gerber 9 Incremental", f"p.drl: {wrong} 69"),
        ]:
            with self.subTest(first=first, behind=behind):
                status, line = self.line(files)
                self.assertEqual((status, line.startswith(first)), (3, True), line)
                self.assertTrue(line.endswith(f"; behind that: {behind}"), line)

    def test_alone(self):
        """One refusal has nothing behind it; what only the copy of a bound has is told of that."""
        status, line = self.line(board(p=DRILL.replace("X5.0", "X5")))
        self.assertEqual((status, "behind that" in line, "no bounds" in line), (3, False, False), line)
        thin = TURNED.replace("1.0,0.5,0,0,30", "1.0,0.5,0,0,$1")
        self.assertNotIn("behind that", self.line(board(top=thin))[1])
        self.assertEqual(self.line(board(top=TURNED))[0], 0)
