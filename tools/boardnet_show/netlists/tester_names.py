"""Names of nets in a netlist for a tester: of the netlist or of the copper's labels, each of one net, else NET<n>."""
from collections import defaultdict
from itertools import count
from typing import Dict, List, Optional, Sequence, Set

from boardnet_show.findings.board import Board
from boardnet_show.formats import ipc356
from boardnet_show.formats.gerber_objects import Object
from boardnet_show.formats.ipc356 import NO_NET


def names_on_nets(board: Board, objects: Sequence[Optional[Object]]) -> Dict[int, Set[str]]:
    """For each net the names that the netlist gives it, or without any those of the copper's labels."""
    found: Dict[int, Set[str]] = defaultdict(set)
    labels: Dict[int, Set[str]] = defaultdict(set)
    for _, _, name, net in board.report.points:
        if board.name(name) != NO_NET:
            found[net].add(board.name(name))
    for piece, it in enumerate(objects):
        if it is not None and it.net not in ("", NO_NET):
            labels[board.report.net_of[piece]].add(it.net)
    return {net: found[net] or labels[net] for net in range(board.report.nets)}


class Names:
    """The name of each net, `alias` what stands for a name that is too long for its columns."""

    def __init__(self, board: Board, objects: Sequence[Optional[Object]]) -> None:
        on_nets = names_on_nets(board, objects)
        nets_of: Dict[str, List[int]] = defaultdict(list)
        for net, names in on_nets.items():
            for name in names:
                nets_of[name].append(net)
        self.taken = set(nets_of)
        self.alias: Dict[str, str] = {}
        self.aliases = (word for word in (f"NNAME{k}" for k in count(1)) if word not in self.taken)
        self.several = sorted(name for name, nets in nets_of.items() if len(nets) > 1)
        self.joined = [sorted(names) for _, names in sorted(on_nets.items()) if len(names) > 1]
        own = {net: next(iter(names)) for net, names in on_nets.items() if len(names) == 1}
        only = {net: name for net, name in own.items() if len(nets_of[name]) == 1}
        self.of: List[str] = [only.get(net) or self.free("NET", net) for net in range(board.report.nets)]

    def free(self, word: str, number: int) -> str:
        """A name of a word and a number that nothing else is called."""
        name = f"{word}{number}"
        while name in self.taken:
            name += "_"
        self.taken.add(name)
        return name

    def field(self, net: int) -> str:
        """What stands in a record's columns."""
        name = self.of[net]
        if ipc356.PLAIN_NAME.fullmatch(name):
            return name
        if name not in self.alias:
            self.alias[name] = next(self.aliases)
        return self.alias[name]


def in_ascii(name: str) -> str:
    """A name with each other character as Gerber files may write it."""
    try:
        name = name.encode("latin-1").decode("utf-8")
    except UnicodeError:
        pass
    return "".join(
        it if " " <= it <= "~" else f"\\u{ord(it):04X}" if it <= "\uffff" else f"\\U{ord(it):08X}" for it in name
    )
