"""A board against another one: the other one's netlist for a tester, checked on this board, with places on both.

The netlist is that of `tester`. Where this board is a moved, turned or mirrored copy, or a panel of it, the origin is
found as for hints, and what is told is what `check` says of the moved netlist.
"""
import os
from typing import NamedTuple, Optional, Sequence

from boardnet_show.base.statuses import UNJUDGED, BadCopper, Stop
from boardnet_show.findings import between_bounds, findings
from boardnet_show.findings.besides import Requested, lacking, outcome
from boardnet_show.findings.nearest_copper import gap_of_lines
from boardnet_show.findings.notes import ApartThere, Difference, HasIt, Likened, NearThere, NotLikened, OtherPlaced
from boardnet_show.fitting.hints import Trial, Trials, best_placement
from boardnet_show.fitting.placement import FORMS
from boardnet_show.formats import ipc356
from boardnet_show.geometry.box_tree import apart
from boardnet_show.geometry.distances import from_line
from boardnet_show.geometry.segments import box_of_line
from boardnet_show.intake import mending, package
from boardnet_show.judging import board_copper, judged, two_bounds
from boardnet_show.netlists import own_names, pad_names, tester
from boardnet_show.output.sentences import hints, testers

from .spacing import STEP, Lines, least

KINDS = {"open": "parted", "short": "joined", "missing": "missing"}
FEW = 3


class Likeness(NamedTuple):
    """The comparison with another board, how that was placed where it was moved, and the differences."""

    path: str
    status: int
    said: Likened
    placed: Optional[OtherPlaced]
    differences: Sequence[Difference]


class Move:
    """How places of the other board become places of this one, by the records of its netlist before and after."""

    def __init__(self, before, after):
        pairs = (
            [((a.x, a.y), (b.x, b.y)) for a, b in zip(before, after)] if before is not after else []
        )  # kept records are the same
        for _, form in FORMS:
            shifts = {tuple(v - w for v, w in zip(here, form(*there))) for there, here in pairs}
            if len(shifts) == 1:
                self.form, self.shift = form, shifts.pop()
                return
        self.form, self.shift = FORMS[0][1], (0, 0)

    def back(self, place):
        """The place of the other board."""
        x, y = (v - w for v, w in zip(place, self.shift))
        (a, c), (b, d) = self.form(1, 0), self.form(0, 1)
        return a * x + c * y, b * x + d * y


class Other:
    """The other board: its records by their numbers, and its copper."""

    def __init__(self, made, move):
        self.made, self.move, self.board = made, move, made.board
        self.lines = Lines(made.board)

    def row(self, record):
        return self.made.rows[record - 1]

    def point(self, record):
        """A record's place there."""
        it = self.row(record)
        x, y = it.at.x * self.made.unit, it.at.y * self.made.unit
        return x, y, it.place.layers[0]

    def nearest_piece(self, net, layer, place):
        """The piece of a net on a layer that is nearest to a place."""
        best = None
        for line, r, piece in self.lines.of(net, layer)[0]:
            if best is None or apart(box_of_line(*line, r), place * 2) < best[0] * abs(best[0]):
                found = from_line(place, *line) - r, piece
                best = found if best is None or found < best else best
        return best and best[1]

    def joins(self, record, gap):
        """What is told of a net that this board parts: the copper there where it is parted here."""
        net, place = self.row(record).place.net, self.move.back(gap.place)
        piece = self.nearest_piece(net, gap.layer, place)
        if piece is None:
            return None, []
        return NearThere(self.board.source(piece), self.board.copper_at(place, gap.layer)), [(*place, gap.layer)]

    def parts(self, first, second, layer):
        """What is told of two nets that this board joins: how far apart they are there on that layer, and where."""
        nets = [self.row(record).place.net for record in (first, second)]
        if nets[0] == nets[1] or not all(self.lines.of(net, layer)[0] for net in nets):
            return None, []
        distance, a, b = least(self.lines, layer, *nets)
        place = gap_of_lines(a[:2], b[:2], layer).place
        sources = self.board.source(a[2]), self.board.source(b[2])
        told = ApartThere(distance // STEP * STEP, self.board.copper_at(place, layer), sources)
        return told, [(*place, layer)]


def difference(board, other, finding):
    """A finding of this board by the other one's netlist."""
    records = [board.report.points[point][0] for point in finding.points]
    there, places = None, []
    here = [(*board.spot(point), board.layer(point)) for point in finding.points]
    if finding.kind == "open" and finding.gap:
        here.insert(0, (*finding.gap.place, finding.gap.layer))
        there, places = other.joins(records[0], finding.gap)
    elif finding.kind == "short":
        here = [(*meet.place, meet.layer) for meet in finding.meets] + here
        layer = finding.meets[0].layer if finding.meets else board.layer(finding.points[0])
        there, places = other.parts(records[0], records[1], layer)
    else:
        piece = other.row(records[0]).place.pieces[0]
        there = HasIt(other.board.source(piece))
    kind = KINDS[finding.kind]
    return Difference(
        f"{kind}-{finding.number}",
        kind,
        finding.sure is not False,
        finding,
        there,
        here,
        places + [other.point(record) for record in records[:FEW]],
    )


def differences(program, shapes, answer, made, other_text):
    """What the check of the other one's netlist finds. `shapes` are those of this board, or of the lower one of two,
    where they are known."""
    after = ipc356.records(answer.package.read(answer.package.manifest.netlist))
    other, bounded = Other(made, Move(ipc356.records(other_text), after)), answer.package.between
    told, sources = (bounded[1], bounded[0].sides[0]) if bounded else (answer, {})
    shapes = shapes or board_copper.shapes_of_judged(program, told)
    board = between_bounds.board_of(told, sources, shapes, ties=answer.ties)
    its = between_bounds.Findings(board).of(bounded[0]) if bounded else findings.all_findings(board)
    return [difference(board, other, it) for it in its]


def checked(program, told, text, ties):
    """(trial, the placement) of this board with the other one's netlist, moved where that makes it fit."""
    trials = Trials(program, ties)
    base = Trial(told.package, ties.answer(told))
    trial = trials.of(base, None, {told.package.manifest.netlist: text})
    if trial.report is None:
        raise Stop(trial.status, hints.answer_words(trial.answer))
    if trial.is_misplaced():
        best = best_placement(trials, trial)
        if best and best[1].rank() < trial.rank():
            return best[1], OtherPlaced(best[0].change, best[0].setting)
    return trial, None


def reference(program, path, asked, scratch, board):
    """The other board's netlist, as it was made and as a text; copper files that both boards have are read once."""
    folder = os.path.join(scratch, "like")
    os.makedirs(folder)
    files = package.opened(path, asked, folder)
    if files.manifest and not files.manifest.netlist:
        pad_names.use(files, asked.no_drills)
    own_names.take_whole(files)
    mending.mend(files, program.progress, asked.yes)
    theirs = judged.judge(program, files)
    two_bounds.bounded(program, theirs)
    known = board_copper.Known(board) if board and board.shapes else None
    made = tester.made(program, theirs, os.path.basename(os.path.normpath(path)), known=known)
    if made.text is None:
        raise Stop(theirs.status, f"{path}: {'; '.join(testers.lines(made))}")
    return made, made.netlist.netlist_text(is_plain=True).encode("latin-1")


def requested(program, told, seen, asked, scratch):
    """A judged board compared with another one."""
    try:
        made, text = reference(program, asked.like, asked, scratch, seen.board)
        trial, placed = checked(program, told, text, seen.ties.allowed())
        its = differences(program, seen.board and seen.board.shapes, trial, made.netlist, text)
        if len(made.netlist.rows) < 2 and not its:
            raise Stop(UNJUDGED, "it has one pad alone that can be compared")
    except (Stop, BadCopper) as why:
        return Requested([lacking(f"like {asked.like}", NotLikened(asked.like, str(why)))])
    sure = sum(it.sure for it in its)
    doubt = len(its) - sure + (not made.is_whole)
    counts = (sum(it.kind == kind for it in its) for kind in ("parted", "joined", "missing"))
    said = Likened(asked.like, *counts, made.is_whole, testers.untouched(made.netlist))
    beside = outcome(f"like {asked.like}", sure, doubt, said, tuple((it.name(), it, it.places) for it in its))
    return Requested([beside], like=Likeness(asked.like, beside.status, said, placed, its))
