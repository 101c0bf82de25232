"""Which tools of a drill file are plated, by what the file says of each.

A file says so by attributes in comments, by `;TYPE=..`, and by the comments of Allegro and Fritzing, which name tools
by their numbers. More is read here than `check` takes or passes over, so that a hole that is called unplated is seen
in each form of it.
"""
import re
from typing import Dict, Iterator, List, NamedTuple, Optional, Set, Tuple

from .drill_headers import headed
from .drill_lines import BODY, Comment, Hit, Line, Pick, Repeat, Rout, Tool, lines

# The one form of a file's function that `check` reads; the others are comments to it.
EXACT = b"; #@! TF.FileFunction,"
FUNCTION = re.compile(rb";[ \t]*#@![ \t]*TF\.FileFunction[ \t]*,(.*)", re.S)
ATTRIBUTE = re.compile(rb";[ \t]*#@![ \t]*TA\.AperFunction[ \t]*,[ \t]*(Plated|NonPlated|BackDrill)\b")
OTHER_ATTRIBUTE = re.compile(rb";[ \t]*#@![ \t]*(?:TA\.AperFunction\b|TD(?:\.AperFunction)?[ \t]*\Z)")
KIND = rb"((?:NON|UN|NOT)[ _-]*PLATED|PLATED|NPTH|PTH)(?![A-Z0-9])"
TYPE = re.compile(rb";[ \t]*TYPE[ \t]*=[ \t]*(?:" + KIND + rb")?.*", re.I | re.S)
# `;T08 Holesize 8. = 63.0 Tolerance = +0.0/-0.0 NON_PLATED MILS Quantity = 4` of Allegro, also without the tool.
HOLESIZE = re.compile(rb";[ \t]*(?:T([0-9]{1,4})[ \t]+Holesize\b|Holesize[ \t]+([0-9]{1,4})\b).*?[ \t]" + KIND, re.I)
# `; NON-PLATED HOLES START AT T1` and `; THROUGH (PLATED) HOLES START AT T100` of Fritzing.
STARTS = re.compile(rb";[ \t]*(?:THROUGH[ \t]*)?\(?" + KIND + rb"\)?\s+HOLES\s+START\s+AT\s+T([0-9]{1,4})\b", re.I)

WHOLE_KIND = re.compile(KIND, re.I)
ANY_FUNCTION = re.compile(rb"T[FA]\.(?:File|Aper)Function[ \t]*,([^*%\r\n]*)")

# Any other comment that names a tool, and says of holes that they are not plated.
UNPLATED = re.compile(rb"(?<![A-Z])(?:(?:NON|UN|NOT)[ _-]*PLATED|NPTH)(?![A-Z0-9])", re.I)
NAMED = re.compile(rb"(?<![A-Z0-9])T([0-9]{1,4})(?![0-9])", re.I)

# Plated, not plated, or not said.
Kind = Optional[bool]
Function = Tuple[int, List[str], bool]


def only(kinds: Set[bool]) -> Kind:
    return next(iter(kinds)) if len(kinds) == 1 else None


def set_of(*kinds: Kind) -> Set[bool]:
    """Those that are said."""
    return {kind for kind in kinds if kind is not None}


def is_plated(kind: bytes) -> bool:
    """What a word of KIND says."""
    return kind.upper() in (b"PLATED", b"PTH")


class PlatedBy(NamedTuple):
    """What a file beside a drill file says of tools: whether they are plated."""

    name: str
    tools: Dict[int, bool]


class Plating:
    """`called` has for each tool's number what is said of it, plated or not, `tools` the one answer, None where there
    is none or both. An attribute is that of the next tool, and one that says unplated of all tools up to the next
    attribute, as in copper files; a TYPE is that of all tools after it, or behind the last tool that of the holes.
    `functions` are the fields of each file function, with its line and whether `check` reads it."""

    def __init__(self, data: bytes, beside: Optional[PlatedBy] = None) -> None:
        self.head = headed(data)
        self.lines = list(lines(self.head.data))
        self.called: Dict[int, Set[bool]] = {}
        self.unplated_line = 0
        self.said: Set[bool] = set()
        self.types: Set[Kind] = set()
        self.numbered: Dict[int, Set[bool]] = {}
        self.starts: List[Tuple[int, bool]] = []
        its = functions_of(self.lines) if b"TF.FileFunction" in data else ()
        self.functions: List[Function] = [(self.head.line(number), fields, is_read) for number, fields, is_read in its]
        self.own: Kind = None
        self.lasting: Kind = None
        self.behind: Kind = None
        self.sizes: List[bool] = []  # of Allegro's comments without a tool, those since the last tool
        self.read_header()
        for tool, called in self.called.items():
            called.update(self.numbered.get(tool, ()), self.started(tool))
        # A file beside it says it of tools of which nothing is said here.
        self.beside = beside if beside and not self.functions and not any(self.called.values()) else None
        for tool in self.called if self.beside else ():
            self.called[tool] = set_of(self.beside.tools.get(tool) if self.beside else None)
        self.tools: Dict[int, Kind] = {tool: only(called) for tool, called in self.called.items()}

    def read_header(self) -> None:
        for line in self.lines:
            record = line.record()
            if line.part == BODY and self.called:
                break
            if isinstance(record, Tool) and record.sizes():
                # One such comment before a tool is the tool's, whatever it counts; of several each is its number's.
                sizes = self.sizes if len(self.sizes) == 1 else []
                self.called.setdefault(record.number, set()).update(set_of(self.lasting, self.own, *sizes))
                self.own, self.sizes, self.behind = False if self.own is False else None, [], None
            elif isinstance(record, Comment):
                self.comment(line.number, record.text)

    def started(self, tool: int) -> List[bool]:
        """What the last kind that starts at a number up to this one says of a tool."""
        return [kind for first, kind in sorted(self.starts) if first <= tool][-1:]

    def comment(self, number: int, text: bytes) -> None:
        attribute, kind, size, start = (form.match(text) for form in (ATTRIBUTE, TYPE, HOLESIZE, STARTS))
        if kind:
            self.lasting = self.behind = None if kind[1] is None else is_plated(kind[1])
            self.types.add(self.lasting)
        if size:
            self.numbered.setdefault(int(size[1] or size[2]), set()).add(is_plated(size[3]))
            self.sizes += [] if size[1] else [is_plated(size[3])]
        if start:
            self.starts.append((int(start[2]), is_plated(start[1])))
        self.own = attribute[1] == b"Plated" if attribute else None if OTHER_ATTRIBUTE.match(text) else self.own
        self.said |= set_of(self.lasting if kind else self.own if attribute else None)
        numbered = [is_plated(it) for it in (size and size[3], start and start[1]) if it]
        free = () if kind or size or start or b"#@!" in text or not UNPLATED.search(text) else NAMED.findall(text)
        for tool in free:
            # Of several it is not known which is meant.
            self.numbered.setdefault(int(tool), set()).update({False, len(free) > 1})
            numbered.append(False)
        if not self.unplated_line and False in (self.own, self.lasting, *numbered):
            self.unplated_line = self.head.line(number)

    def is_mixed(self) -> bool:
        """Whether the file has unplated holes: as it says of itself, or else as its tools say, each word that of a
        tool."""
        if self.functions:
            return {fields[0] for _, fields, _ in self.functions} == {"MixedPlating"}
        return False in self.tools.values() and self.said <= set(self.tools.values())

    def unsaid(self) -> List[int]:
        """The tools of which the file does not say whether they are plated, or says both."""
        return sorted(number for number, plated in self.tools.items() if plated is None)

    def unplated(self) -> List[int]:
        return sorted(number for number, plated in self.tools.items() if plated is False)

    def is_told(self) -> bool:
        """Whether the file mixes both kinds of holes, each tool says which it is, and no hole is said to be another."""
        is_said = self.is_mixed() and bool(self.tools) and not self.unsaid()
        return is_said and all(len(called) == 1 for _, called in self.holes())

    def plating_line(self) -> int:
        """The line that says that the file mixes them, or the first that says that a tool is unplated."""
        return self.functions[0][0] if self.functions else self.unplated_line or self.first_unplated()

    def first_unplated(self) -> int:
        """The line that defines the first unplated tool, or 0."""
        its = ((line, line.record()) for line in self.lines)
        tools = (
            line.number for line, record in its if isinstance(record, Tool) and self.tools.get(record.number) is False
        )
        return next(tools, 0)

    def holes(self) -> Iterator[Tuple[int, Set[bool]]]:
        """The line of each hole, and what is said of it: of its tool, and by the last TYPE before it behind the
        tools."""
        tool, kind = 0, self.behind
        called = set_of(kind)
        for line in self.lines if self.tools else ():
            if line.part != BODY:
                continue
            record = line.record()
            if isinstance(record, (Hit, Rout, Repeat)):
                yield self.head.line(line.number), called
            elif isinstance(record, (Comment, Pick)):
                said = TYPE.match(line.text)
                kind = is_plated(said[1]) if said and said[1] else None if said else kind
                tool = record.number if isinstance(record, Pick) else tool
                called = self.called.get(tool, set()) | set_of(kind)

    def is_unplated_alone(self) -> bool:
        """Whether a file without a function says of all its holes that they are unplated."""
        told = [called for _, called in self.holes()] or list(self.called.values())
        return not self.functions and self.said <= {False} and bool(told) and all(called == {False} for called in told)

    def is_taken_as_plated(self) -> bool:
        """Whether `check` takes all holes as plated: by the function that it reads, or without one, and there is no
        mend."""
        return {fields[0] for _, fields, is_read in self.functions if is_read} <= {"Plated"} and not self.is_told()


def functions_of(its: List[Line]) -> Iterator[Function]:
    """The file functions: each a line, its fields, and whether `check` reads it."""
    for line in its:
        found = FUNCTION.match(line.text)
        if found:
            fields = [field.strip() for field in found[1].decode("latin-1").split(",")]
            yield line.number, fields, line.text.startswith(EXACT)


def unplated_hole(data: bytes) -> int:
    """The line of the first hole that the file calls unplated and `check` would take as plated, or 0."""
    plating = Plating(data)
    holes = plating.holes() if plating.is_taken_as_plated() else ()
    return next((number for number, called in holes if False in called), 0)


class Both(NamedTuple):
    """A word that says of holes that they are plated and that they are not: its line, and what it says."""

    line: int
    words: str


def in_both_ways(data: bytes) -> Optional[Both]:
    """The first file function, or tool's, that says both, as `Plated,1,2,NPTH`; of drill files in either format."""
    for found in ANY_FUNCTION.finditer(data) if b"Function" in data else ():
        fields = (WHOLE_KIND.fullmatch(field.strip()) for field in found[1].split(b","))
        if len({is_plated(it[1]) for it in fields if it}) > 1:
            return Both(data.count(b"\n", 0, found.start()) + 1, found[0].decode("latin-1").strip())
    return None


def unread_function(data: bytes, first: int, last: int) -> Optional[Tuple[str, int]]:
    """The kind and the line of a file function that `check` passes over by its form, else would refuse; or nothing."""
    plating = Plating(data)
    for number, (what, *fields), is_read in plating.functions:
        if is_read or what == "MixedPlating" and plating.is_told():
            continue
        if what in ("NonPlated", "MixedPlating"):
            return ("drill 12 NotPlated" if what == "NonPlated" else "drill 13 MixedPlating"), number
        if what != "Plated":
            return "drill 2 BadLine", number
        if fields[:2] != [str(first), str(last)]:
            return "drill 11 WrongSpan", number
    return None
