"""The guide's tables of kinds and messages: each message is what the program prints for an input of its kind, and each has a row here."""
import os
import re

from tests.fixtures import common

GUIDE = os.path.join(common.TOP, "docs", "using", "refusals.md")
M = '{"copper":["F_Cu.gbr"],"drills":[],"netlist":"n.ipc"}'
DRILLED = M.replace("[]", '[{"file":"PTH.drl","from":1,"to":1}]')
NET = "P  UNITS CUST 1\n327A                                  A01X+000000Y+000000\n999\n"
HEAD = "%FSLAX46Y46*%\n%MOMM*%\n"
PAD = HEAD + "%ADD10C,1.0*%\nD10*\nX0Y0D03*\nM02*\n"
MIXED = "M48\n; DRILL file {KiCad 6.0.11}\n; FORMAT={-:-/ absolute / metric / decimal}\n; #@! TF.FileFunction,WHICH\nMETRIC\n%\nM30\n"
FAR = HEAD + "%ADD10C,10.0*%\nD10*\nX0Y45000000D03*\nX996000000Y5000000D03*\nM02*\n"
REPORT = "boardnet 1\r\npieces 0\r\n"

# What the message begins with, up to its place, and the files that make it; audit where there is a report.
ROWS = {
    "m.json: not JSON": {"m.json": M[:-1]},
    "m.json: not a manifest": {"m.json": M.replace("copper", "layers")},
    "m.json: cannot be read": {},
    "r.txt: not a report": {"r.txt": REPORT},
    "frame too large": {"F_Cu.gbr": FAR},
    "PTH.drl: drill 6 ImpliedDecimals": {"m.json": DRILLED, "PTH.drl": "M48\nMETRIC\nT1C0.5\n%\nT1\nX0Y0\nM30\n"},
    "PTH.drl: drill 2 BadLine": {"m.json": DRILLED, "PTH.drl": "M48\r\nMETRIC,000.000\r\nT1C0.3\r\n%\r\nM30\r\n"},
    "PTH.drl: drill 13 MixedPlating": {"m.json": DRILLED, "PTH.drl": MIXED.replace("WHICH", "MixedPlating,1,1")},
    "PTH.drl: drill 12 NotPlated": {"m.json": DRILLED, "PTH.drl": MIXED.replace("WHICH", "NonPlated,1,1,NPTH")},
    "PTH.drl: drill 11 WrongSpan": {"m.json": DRILLED, "PTH.drl": MIXED.replace("WHICH", "Plated,1,2,PTH")},
    "F_Cu.gbr: Gerber 12 Macro": {"F_Cu.gbr": HEAD + "%AMRoundRect*\n1,1,$1,0,0*%\nM02*\n"},
    "F_Cu.gbr: flatten 36 Slanted": {"F_Cu.gbr": HEAD + "%AMS*\n20,1,0.2,0,0,1.0,1.0,0*%\n%ADD10S*%\nM02*\n"},
    "F_Cu.gbr: Gerber 11 Arc": {"F_Cu.gbr": HEAD + "%ADD10C,0.2*%\nD10*\nG75*\nG02*\nX1Y1I1J0D01*\nM02*\n"},
    "F_Cu.gbr: Gerber 10 ClearPolarity": {"F_Cu.gbr": HEAD + "%LPC*%\nM02*\n"},
    "F_Cu.gbr: Gerber 25 WrongLayer": {"F_Cu.gbr": "%TF.FileFunction,Copper,L2,Bot*%\n" + PAD},
    "F_Cu.gbr: label at command": {"F_Cu.gbr": HEAD + "%TO.N," + "N" * 201 + PAD.replace(HEAD, "*%\n")},
    "n.ipc: netlist 3 MissingUnits": {"n.ipc": "C made by hand\n" + NET.split("\n", 1)[1]},
    "n.ipc: netlist 10 NotEnded": {"n.ipc": NET.replace("999\n", "")},
    "differs": {"n.ipc": NET.replace("X+000000", "X+005000")},
}
# Messages of the launcher, or with a size that no test writes.
ELSEWHERE = ("F_Cu.gbr: longer than 67108864 bytes", "the program is not built")


def guide():
    with open(GUIDE, encoding="utf-8") as file:
        return file.read()


def printed():
    """The messages of the table, in order."""
    return re.findall(r"^\| `boardnet: ([^`]*)` \|", guide().split("## Messages and ways out")[1], re.M)


def kind_of(head):
    """The table, number and name of a refusal's kind, or nothing where the message is none."""
    found = re.fullmatch(r"\S+: (Gerber|drill|netlist|flatten) (\d+) (\w+)", head)
    return found and found.groups()


def words_for(head, files):
    """The words that print the message: a label is read by `x2` alone, a macro by `flatten`."""
    if "label" in head:
        return ["x2", "m.json"]
    if "flatten" in head:
        return ["flatten", "F_Cu.gbr"]
    return ["audit", "m.json", "r.txt"] if "r.txt" in files else ["check", "m.json"]


class Guide(common.Case):
    def test_each_message_has_a_row(self):
        heads = [head for head in (*ROWS, *ELSEWHERE) if not kind_of(head)]
        for message in printed():
            self.assertEqual(len([head for head in heads if message.startswith(head)]), 1, message)
        for head in heads:
            self.assertEqual(len([message for message in printed() if message.startswith(head)]), 1, head)

    def test_each_kind_is_in_its_table(self):
        tables = re.split(r"(?m)^\| (Gerber|Drill|Netlist|`flatten` alone) \| Kind \|", guide())
        found = {name.split()[0].strip("`").lower(): text for name, text in zip(tables[1::2], tables[2::2])}
        for table, number, name in filter(None, map(kind_of, ROWS)):
            self.assertIn(f"| {number} | `{name}` |", found[table.lower()])

    def test_each_message_is_printed(self):
        program = common.program()
        for number, (head, files) in enumerate(ROWS.items()):
            folder = f"row{number}"
            whole = {"m.json": M, "F_Cu.gbr": PAD, "n.ipc": NET, **files}
            if not files:
                del whole["m.json"]
            for name, text in whole.items():
                self.write(f"{folder}/{name}", text)
            _, _, notes = self.run_words([program, *words_for(head, files)], self.path(folder))
            with self.subTest(head=head):
                if kind_of(head):
                    self.assertRegex(
                        notes, rf"boardnet: {re.escape(head)} at (?:command \d+, byte|line) \d+(?:, byte \d+)?\n"
                    )
                else:
                    self.assertEqual(notes, f"boardnet: {next(it for it in printed() if it.startswith(head))}\n")

    def test_toolchain_is_the_readmes(self):
        with open(os.path.join(common.TOOLS, "toolchain")) as file:
            wanted = file.read().strip()
        with open(os.path.join(common.TOP, "README.md"), encoding="utf-8") as file:
            self.assertIn(wanted, file.read())
