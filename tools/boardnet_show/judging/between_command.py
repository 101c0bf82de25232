"""Whether the program takes both boards of a board as its bounds: its command `between`, where it reads all copper
outside the profile.

It reads the user's files with their arcs and macros, and tests of each piece of the board that it lies between those
that stand for it. A file of counts says how many stand for each; nothing trusts it. What it finds is compared with the
reports on both boards, line by line. Of regions with arcs it wants smaller areas: the board is judged by these too, and
where they find the same, they are shown.
"""
import re
from itertools import groupby
from operator import itemgetter
from typing import NamedTuple

from boardnet_show.base.statuses import UNDECIDED, UNJUDGED, Stop
from boardnet_show.geometry.exact import Refused

from . import answers, files_that_came, two_bounds
from .files_that_came import Asked, Side
from .net_ties import Ties
from .two_bounds import own_commands

ANSWERS = {0: "agrees", 1: "differs", UNDECIDED: "undecided"}
UNBOUNDED = (": not bounded below", ": not bounded above")
NAME = re.compile(rb"^name [0-9]+ (.*)$", re.M)


def counts(package, sides, high):
    """How many pieces of both boards stand for each piece of the board: of a command that is written otherwise, and
    each copy, its rows."""
    manifest = package.manifest
    rows = [sides.rows[name] for name in manifest.copper] + [{}] * len(manifest.drills)
    above, told = own_commands(high.report, manifest, sides.sources[1]).sources, []
    for (file, command, _), its in groupby(above, itemgetter(0, 1, 2)):
        told += rows[file].get(command) or [(1, 1) for _ in its]
    return "".join(f"{below} {over}\n" for below, over in told)


def asked(program, package, sides, high, declared) -> Asked:
    """What the program answers on the board between both."""
    both = [
        Side(side, its, [*dict.fromkeys([*origin, *package.rewritten()])])
        for side, its, origin in zip(two_bounds.SIDES, sides.packages, sides.sources)
    ]
    return files_that_came.ask(program, package, both, counts(package, sides, high), declared)


# ---- what it finds, by the reports on both boards


class Found(NamedTuple):
    """Test points: of each open the first one on its further net, of each short those of its names, and those
    without copper."""

    opens: list
    shorts: list
    missing: list

    @staticmethod
    def of(joined, parted):
        """The shorts of one report, the opens and missing points of another."""
        shorts = [tuple(point for _, point, _ in branches) for _, branches in joined.shorts]
        return Found([row[-1] for row in parted.opens], shorts, list(parted.bare))

    def without(self, other):
        return Found(*([it for it in ours if it not in theirs] for ours, theirs in zip(self, map(set, other))))

    def counted(self, report, ties):
        """How much of it counts where names are tied."""
        names = lambda short: {ties.all_of(report.names[report.points[point][2]]) for point in short}
        return len(self.opens) + sum(len(names(short)) > 1 for short in self.shorts) + len(self.missing)

    def lines(self, point):
        """As the text of `between` has it; `point` tells a point's words."""
        yield f"opens {len(self.opens)}"
        yield from (f"open {point(it)}" for it in self.opens)
        yield f"shorts {len(self.shorts)}"
        for short in self.shorts:
            yield f"short {len(short)}"
            yield from (f"point {point(it)}" for it in short)
        yield f"missing {len(self.missing)}"
        yield from (f"bare {point(it)}" for it in self.missing)


class Decision:
    """What two judged boards decide of one between them."""

    def __init__(self, low, high):
        self.low, self.high = low.report, high.report
        self.certain = Found.of(self.low, self.high)
        self.undecided = Found.of(self.high, self.low).without(self.certain)
        self.names = [name.decode("ascii") for name in NAME.findall(high.text)]

    def point(self, number):
        """A test point by its record, layer and place, and by its name as the netlist has it."""
        record, layer, name, _ = self.high.points[number]
        return " ".join(map(str, (record, layer, *self.high.spots[number], self.names[name])))

    def heads(self):
        """The lines on both boards."""
        for side, its in zip(two_bounds.SIDES, (self.low, self.high)):
            yield " ".join(map(str, (side, its.pieces, its.nets, len(its.opens), len(its.shorts), len(its.bare))))

    def findings(self):
        """The lines from `certain` on, but for the last, which is `word` without ties."""
        return ["certain", *self.certain.lines(self.point), "undecided", *self.undecided.lines(self.point)]

    def word(self, ties):
        """The answer, with ties taken into account."""
        if self.certain.counted(self.high, ties) + len(ties.parted(self.high)):
            return ANSWERS[1]
        return ANSWERS[UNDECIDED if self.undecided.counted(self.high, ties) + len(ties.parted(self.low)) else 0]


def confirm(text, decision, status, ties):
    """Stops where `between` finds otherwise than the reports, or these than the answer."""
    lines = text.decode("ascii", "replace").split("\n")
    at = lines.index("certain") if "certain" in lines else len(lines)
    heads, findings, said = lines[:at], lines[at:-2], "".join(lines[-2:-1])
    own = decision.word(Ties())
    if said != own or decision.word(ties) != ANSWERS[status]:
        raise Stop(
            UNJUDGED, f"`between` says {said} of a board that {own} by its bounds, and {ANSWERS[status]} with its ties"
        )
    if findings != decision.findings() or not set(decision.heads()) <= set(heads):
        raise Stop(UNJUDGED, "`between` finds otherwise than `check` on the same two boards")


# ---- what is told


def smaller(program, package, ties):
    """The board by the smaller areas that `between` wants: both sides, and what `judge` of `bounds` answers of them;
    None where they are none."""
    try:
        sides = two_bounds.of_package(package, is_coarse=True, told=program.progress.step)
        return sides, two_bounds.judged_by(program, package, sides, ties, package.between)
    except Refused:
        return None


def finds_as(one, other, ties):
    """Whether two pairs of judged boards decide the same."""
    one, other = Decision(*one[1:]), Decision(*other[1:])
    return (one.certain, one.undecided, one.word(ties)) == (other.certain, other.undecided, other.word(ties))


def refused(judged, why):
    """The answer where `between` does not take a bound: then nothing stands on both."""
    package = judged.package
    package.no_bounds, package.sides, package.between = f"`between` does not take them: {why}", None, None
    return two_bounds.Bounded(
        answers.without_bounds(judged.status, judged.line, judged.refusal, package.no_bounds), [], []
    )


def proved(bounds, its):
    """The same answer, by bounds that the program takes."""
    answer = bounds.answer
    return bounds._replace(
        answer=answer._replace(both=answer.both._replace(is_proved=True), of_files=its.of_files(True))
    )


def exact(program, judged, answer, ties, declared=()):
    """The answer on a board of whose files copies were judged, with whether the program says the same of the files as
    they came."""
    package = judged.package
    copies = package.rewritten()
    if answer.status not in (0, 1) or not copies:
        return answer
    its = files_that_came.ask(
        program, package, [Side("judged", package, copies)], files_that_came.each_as_itself(judged.report), declared
    )
    is_proved = its.answer.status in (0, 1)
    if is_proved:
        confirm(its.answer.out, Decision(judged, judged), answer.status, ties)
    return answer._replace(of_files=its.of_files(is_proved))


def answer_of_between(program, judged, answer, ties, is_finer=False, declared=()):
    """The answer on a board between two bounds, with the word where the program takes these and finds what they do;
    they are the package's then. Of regions with arcs `is_finer` keeps the areas that it does not take."""
    package = judged.package
    if not answer.sides or answer.status not in ANSWERS or None in package.sides.rows.values():
        return answer
    boards = smaller(program, package, ties) if package.sides.is_bent else (package.sides, package.between)
    if not boards:
        return answer
    sides, between = boards
    found = asked(program, package, sides, between[2], declared)
    its = found.answer
    if its.status == 3 and its.line.endswith(UNBOUNDED):
        return refused(judged, its.line)
    if its.status not in (0, 1):
        return answer._replace(notes=(f"`between` was asked, and stopped: {its.line}",)) if its.status == 3 else answer
    confirm(its.out, Decision(*between[1:]), between[0].status, ties)
    if package.sides.is_bent and (is_finer or not finds_as(between, package.between, ties)):
        return answer
    package.sides, package.between = boards
    return proved(between[0], found)
