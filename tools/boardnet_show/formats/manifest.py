"""The manifest of a board: which files are its copper, its holes and its netlist."""
import json
from typing import Any, Dict, List, Mapping, Optional


class Manifest:
    """Files by their names; `files` are the copper files and then the drill files, numbered as in a report's
    sources."""

    def __init__(self, told: Mapping[str, Any]) -> None:
        self.copper = [str(name) for name in told["copper"]]
        self.drills = [(str(it["file"]), int(it["from"]), int(it["to"])) for it in told["drills"]]
        self.netlist = str(told["netlist"])
        self.files = self.copper + [name for name, _, _ in self.drills]
        self.layers = len(self.copper)

    def values(self) -> Dict[str, Any]:
        """What it is made of."""
        drills = [{"file": name, "from": first, "to": last} for name, first, last in self.drills]
        return {"copper": self.copper, "drills": drills, "netlist": self.netlist}

    def changed(self, **parts: Any) -> "Manifest":
        """The manifest with other copper files or another netlist."""
        return Manifest({**self.values(), **parts})

    def json_text(self) -> str:
        return json.dumps(self.values(), separators=(",", ":")) + "\n"

    def names(self) -> List[str]:
        """Each file that it names, once."""
        return list(dict.fromkeys([*self.files, self.netlist]))

    def layer_word(self, layer: int) -> str:
        """A layer in a few words."""
        if self.layers == 1:
            return "the one layer"
        return "top" if layer == 1 else "bottom" if layer == self.layers else f"layer {layer}"

    def is_drilled(self, file: int) -> bool:
        return file >= self.layers


def of_text(data: bytes) -> Optional[Manifest]:
    """The manifest in some bytes, or None where they are none: then `check` says why."""
    try:
        told = Manifest(json.loads(data.decode("utf-8")))
    except (ValueError, KeyError, TypeError, OverflowError, RecursionError):
        return None
    return told if all(map(is_name, told.names())) else None


def is_name(name: str) -> bool:
    """Whether `check` takes a file of this name: 1 to 200 printable ASCII characters."""
    return 1 <= len(name) <= 200 and all(32 <= ord(character) <= 126 for character in name)
