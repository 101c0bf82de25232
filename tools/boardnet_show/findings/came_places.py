"""Which command or line of the file that came a piece of a judged copy is from; nothing where that cannot be known.

A flattened file has its pieces in the order of the objects that made them. Mends keep the numbers of commands and lines
but for a few, of which it is known which they move.
"""
from typing import Any, Dict, List, Optional, Sequence, Tuple

from boardnet_show.base.statuses import BadCopper
from boardnet_show.formats.gerber_objects import Object, objects_of
from boardnet_show.geometry.exact import Refused
from boardnet_show.intake.mends.table import CONTOUR, TURN
from boardnet_show.intake.package import Package

# The number of a command or a line, and of the copy of a block.
Came = Tuple[int, int]
NOT_READ = (BadCopper, Refused, ValueError, IndexError, KeyError, TypeError, ArithmeticError)


def objects_or_none(data: bytes) -> Optional[List[Object]]:
    try:
        return objects_of(data)
    except NOT_READ:
        return None


def made(its: Sequence[Object]) -> List[Any]:
    return [(it.kind, it.place, it.copy, it.pieces) for it in its]


class Commands:
    """The commands of a copper file that came, by those of its mended copy."""

    def __init__(self, package: Package, name: str) -> None:
        kinds = {it.kind for it in package.mends if it.file == name} & {CONTOUR, TURN}
        self.is_same, self.known = not kinds, {}
        if not kinds:
            return
        came, mended = objects_or_none(package.bytes_that_came(name)), objects_or_none(before(package, name))
        if came is None or mended is None:
            return
        if made(came) == made(mended):
            self.known = {new.command: old.command for new, old in zip(mended, came)}
        elif kinds == {CONTOUR}:
            # Words keep their numbers up to the end, where the further parts stand.
            last = max((it.command for it in came), default=0)
            self.known = {it.command: it.command for it in mended if it.command <= last}

    def of(self, command: int) -> Optional[int]:
        return command if self.is_same else self.known.get(command)


def before(package: Package, name: str) -> bytes:
    """A copper file as it was mended, before it was flattened or written between bounds."""
    base = package.base or package
    return package.before.get(name) or base.before.get(name) or base.read(name)


class CamePlaces:
    """Those of all pieces of a board, file by file as they are asked for."""

    def __init__(self, board: Any) -> None:
        self.board, self.package = board, board.package
        self.by_file: Dict[int, Any] = {}
        self.first: Dict[int, int] = {}
        for piece, (file, *_) in enumerate(board.report.sources):
            self.first.setdefault(file, piece)

    def of(self, piece: int) -> Optional[Came]:
        file, number, copy, *_ = self.board.report.sources[piece]
        name = self.board.manifest.files[file]
        if self.board.manifest.is_drilled(file):
            lines = self.package.lines.get(name)
            return (number, copy) if lines is None else (lines[number - 1], copy) if number <= len(lines) else None
        if file not in self.by_file:
            self.by_file[file] = Commands(self.package, name), self.flattened(file, name)
        commands, objects = self.by_file[file]
        if objects is not None:
            at = piece - self.first[file]
            if at >= len(objects):
                return None
            number, copy = objects[at].command, objects[at].copy
        known = commands.of(number)
        return None if known is None else (known, copy)

    def flattened(self, file: int, name: str) -> Optional[List[Object]]:
        """The objects of the pieces of a flattened file, none where they are not known; None of any other file."""
        if name not in self.package.flattened:
            return None
        its = [it for it in objects_or_none(before(self.package, name)) or () for _ in range(it.pieces)]
        count = sum(source[0] == file for source in self.board.report.sources)
        return its if len(its) == count and self.are_of(its, self.first.get(file, 0)) else []

    def are_of(self, objects: Sequence[Object], first: int) -> bool:
        """Whether draws end where their pieces do, as far as the copper is known."""
        shapes = self.board.shapes
        return shapes is None or all(
            it.kind != "draw" or it.place in shapes.places(piece) for piece, it in enumerate(objects, first)
        )
