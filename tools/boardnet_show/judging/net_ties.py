"""Net ties that are declared: names that the copper is meant to join, as `--tie A=B`, lines of ties.txt and pads of
several nets say.

A short whose names are all tied together is such a tie and no finding. A tie that no copper makes is an open. What
`check` says is not changed: its report has each tie as a short, and `audit` confirms that report.
"""
import re
from typing import Any, Dict, Iterator, List, NamedTuple, Tuple

from boardnet_show.base.statuses import NOT_UNDERSTOOD, Stop
from boardnet_show.formats.ipc356 import NO_NET
from boardnet_show.formats.report import Report
from boardnet_show.intake.package import TIES

from .answers import EXACT, STOPPED, Answer, Counts

NONE_WHOLE = {}
# A line of ties.txt that begins with the sign, or what comes behind it with blanks round it: names may have it.
COMMENT = re.compile(r"\A\s*#.*|\s#(\s.*)?\Z")


class Tie(NamedTuple):
    """Two names, and where they are declared; `is_asked` where that is an option or a file of declarations."""

    names: Tuple[str, ...]
    source: str
    is_asked: bool = False

    def equation(self):
        return "=".join(self.names)

    def line(self):
        """A line of ties.txt that declares it, or a comment where the names have what no line can say."""
        lines = ("=".join(names) for names in (self.names, self.names[::-1]))
        return next(
            (line for line in lines if sorted(parts_of(COMMENT.sub("", line))) == sorted(self.names)),
            f"# not in a line: {self.equation()}",
        )


def parts_of(text):
    return tuple(part.strip() for part in text.split("="))


def tie(text, source, whole=NONE_WHOLE):
    names = tuple(whole.get(name, name) for name in parts_of(text))
    if len(names) != 2 or not all(names) or names[0] == names[1] or NO_NET in names:
        raise Stop(NOT_UNDERSTOOD, f"{source}: `{text.strip()}` is no tie: two net names as GND=AGND")
    return Tie(names, source)


def declared(asked, package, declarations=()):
    """The ties of the command, of (text, source) of declarations, of the file beside the manifest and of the copper's
    own names, each once, by whole names."""
    rows = [*((text, "--tie") for text in asked), *declarations]
    found = [tie(text, source, package.whole)._replace(is_asked=True) for text, source in rows]
    try:
        lines = [COMMENT.sub("", line) for line in package.read(TIES).decode("utf-8-sig", "replace").splitlines()]
    except OSError:
        lines = []
    found += [
        tie(line, f"{TIES}, line {number}", package.whole) for number, line in enumerate(lines, 1) if line.strip()
    ]
    return Ties({frozenset(it.names): it for it in reversed([*found, *package.ties])}.values())


class Ties:
    """All that is declared. `all_of` is what a name counts as: tied names count as one."""

    def __init__(self, ties=()):
        self.ties, self.of = sorted(ties, key=lambda declared_tie: declared_tie.names), {}
        for it in self.ties:
            one, two = (self.of.get(name, (name,)) for name in it.names)
            both = tuple(sorted({*one, *two}))
            self.of.update(dict.fromkeys(both, both))

    def file_text(self):
        """The lines of a file that declares them."""
        return "".join(f"{it.line()}\n" for it in self.ties)

    def all_of(self, name):
        """A name with all that are tied to it."""
        return self.of.get(name, (name,))

    def side(self, name):
        """The same in words; a name that has the sign may have the same words."""
        return "=".join(self.all_of(name))

    def allowed(self):
        """What the ties allow, without asking that the copper has them."""
        its = Ties()
        its.of = self.of
        return its

    def is_tied_name(self, name):
        """Whether a name is tied to another."""
        return name in self.of

    # ---- a report

    def is_tied(self, report, short):
        """Whether a short of a report joins names that are tied together alone."""
        return len({self.all_of(report.names[name]) for name, *_ in short[1]}) == 1

    def shorts(self, report):
        """The shorts that count, each with its number."""
        return [(number, short) for number, short in enumerate(report.shorts) if not self.is_tied(report, short)]

    def parted(self, report):
        """The ties that no copper of a report makes."""
        nets = nets_of(report) if self.ties else {}
        return [it for it in self.ties if not nets.get(it.names[0], set()) & nets.get(it.names[1], set())]

    def counts(self, report) -> Counts:
        """How many opens, shorts, points without copper and open ties count."""
        return Counts(len(report.opens), len(self.shorts(report)), len(report.bare), len(self.parted(report)))

    def answer(self, told) -> Answer:
        """The answer on a judged package, with the ties taken into account."""
        plain = Answer(told.status, EXACT if told.report else STOPPED, told.line, told.refusal)
        if not told.report:
            return plain
        plain = plain._replace(found=Counts(len(told.report.opens), len(told.report.shorts), len(told.report.bare), 0))
        if not self.ties:
            return plain
        counts = self.counts(told.report)
        return plain._replace(status=int(any(counts)), counts=counts, ties=len(self.ties) - counts.open_ties)


def nets_of(report):
    """For each name the nets that have points of it."""
    nets = {}
    for _, _, name, net in report.points:
        if net >= 0:
            nets.setdefault(report.names[name], set()).add(net)
    return nets


def told_of(ties: Ties, report: Report) -> Iterator[Dict[str, Any]]:
    """Each tie for JSON: its names, where it is declared, and the net that makes it, or None."""
    nets = nets_of(report)
    for it in ties.ties:
        both = nets.get(it.names[0], set()) & nets.get(it.names[1], set())
        yield {"names": list(it.names), "source": it.source, "net": min(both, default=None)}


def lost(ties: Ties, report: Report) -> List[str]:
    """For each tie of names that no test point has, and so without a place, what is told of it."""
    return [words for _, words in absent(ties, report)]


def absent(ties: Ties, report: Report) -> Iterator[Tuple[Tie, str]]:
    names = set(report.names)
    for it in ties.ties:
        some = [name for name in it.names if name not in names]
        if some:
            yield it, f"the tie {it.equation()} ({it.source}) is open: no test point has the name {' or '.join(some)}"
