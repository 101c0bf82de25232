"""The table of small files: what boardnet and each other reader read in each."""
from typing import List, NamedTuple, Optional, Tuple

from . import BARE, COPPER, NEAR
from .klayout import Task
from .ours import Ours
from .rules import Rule, column, is_otherwise

SIGNS = {COPPER: "1", BARE: "0", NEAR: "b", None: "-"}


class Cell(NamedTuple):
    """What another reader reads: its states, nothing where it reads no such file; and what it said."""

    reader: str
    states: Optional[str]
    said: str


class Row(NamedTuple):
    """A rule, how boardnet takes it, and what the others read."""

    rule: Rule
    ours: str
    others: List[Cell]

    @property
    def is_kept(self) -> bool:
        return self.ours == self.rule.reads

    @property
    def states(self) -> str:
        """boardnet's states, or nothing where it takes no such file."""
        return self.ours.split()[1].replace("-", "")

    @property
    def otherwise(self) -> List[str]:
        """The readers that read otherwise than the specification says or, where it says nothing, than boardnet."""
        both = zip(self.rule.says, self.states or self.rule.says)
        meant = "".join(ours if says == "?" else says for says, ours in both)
        return [cell.reader for cell in self.others if is_otherwise(meant, cell.states)]

    @property
    def is_alone(self) -> bool:
        """Whether all others that read it, two at least, read it otherwise than boardnet."""
        told = [is_otherwise(self.states, cell.states) for cell in self.others if cell.states]
        return bool(self.states) and len(told) > 1 and all(told)


def rows_of(some: List[Rule], ours: Ours, readers: list) -> List[Row]:
    """The rows of some rules. KLayout, which is slow to begin, is asked once for all."""
    cells: List[List[Cell]] = [[] for _ in some]
    for reader in readers:
        if reader.has_areas:
            told = [it.told for it in reader.looked([Task({"f": rule.data}, rule.kind, rule.places) for rule in some])]
        else:
            told = [reader.states(rule.data, rule.kind, rule.places) for rule in some]
        for cell, it in zip(cells, told):
            states = None if it.states is None else "".join(SIGNS[state] for state in it.states)
            cell.append(Cell(reader.name, states, it.said))
    return [Row(rule, column(ours, rule), cell) for rule, cell in zip(some, cells)]


def line_of(row: Row) -> str:
    """A row as it is printed; ! where a reader reads otherwise."""
    off = row.otherwise
    cells = [f"{cell.reader} {cell.states or 'none'}{'!' if cell.reader in off else ''}" for cell in row.others]
    wrong = "" if row.is_kept else f"  BOARDNET READS OTHERWISE: its column has {row.rule.reads}"
    head = f"{row.rule.name}: {row.rule.has} ({row.rule.section})"
    return f"{head}: says {row.rule.says}; boardnet {row.ours}; {', '.join(cells)}{wrong}"


def markdown(rows: List[Row]) -> List[str]:
    """The rows in which some reader reads otherwise, as a table for a page."""
    names = [cell.reader for cell in rows[0].others] if rows else []
    out = ["| Rule | Section | Says | boardnet | " + " | ".join(names) + " |", "|---" * (len(names) + 4) + "|"]
    for row in rows:
        if row.otherwise:
            off = row.otherwise
            bold = lambda cell: f"**{cell.states}**" if cell.reader in off else cell.states
            cells = [bold(cell) if cell.states else "reads none" for cell in row.others]
            out.append(f"| {row.rule.has} | {row.rule.section} | {row.rule.says} | {row.ours} | {' | '.join(cells)} |")
    return out


def counts(rows: List[Row]) -> List[str]:
    """How boardnet takes the rules, and how many each reader reads otherwise, or not at all."""
    hows = [row.ours.split()[0] for row in rows]
    told = ", ".join(f"{hows.count(how)} {how}" for how in dict.fromkeys(hows))
    amiss = sum(not row.is_kept for row in rows)
    out = [f"{len(rows)} rules: boardnet reads {told}; otherwise than its own column {amiss}"]
    wrong = sum(is_otherwise(row.rule.says, row.states) for row in rows)
    out.append(f"  otherwise than the specification says: boardnet {wrong}")
    alone = ", ".join(row.rule.name for row in rows if row.is_alone)
    out.append(f"  all others otherwise than boardnet: {alone or 'none'}")
    for k, name in enumerate(cell.reader for cell in rows[0].others):
        off, none = sum(name in row.otherwise for row in rows), sum(row.others[k].states is None for row in rows)
        out.append(f"  {name}: otherwise {off}, not read {none}")
    return out


def chunks(some: List[Rule], jobs: int) -> List[Tuple[Rule, ...]]:
    """As many parts as there are jobs, of rules that lie apart."""
    return [part for part in (some[k::jobs] for k in range(jobs)) if part]
