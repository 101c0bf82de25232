"""Hints on a board whose files do not fit together: each one is what `check` says of a changed copy.

A hint says what was changed and the answer; nothing is told that was not tried, the user's files are not touched, and
the board's status stays what it is.
"""
from fractions import Fraction as Q
from functools import partial
from typing import NamedTuple, Optional, Tuple, Union

from boardnet_show.base.refusals import BAD_ACCESS, IMPLIED_DECIMALS, WRONG_LAYER, Refusal
from boardnet_show.base.statuses import Stop
from boardnet_show.formats.report import Report
from boardnet_show.intake.cad_tools import setting
from boardnet_show.intake.package import Package, beside
from boardnet_show.judging import answers, judged
from boardnet_show.judging.net_ties import Ties

from . import access_codes, drill_placement
from .changes import Change, NowherePlaced
from .layer_order import as_labelled, layerings
from .placement import placements

TRIED = 4  # placements that are checked until one agrees, at most
MOST_RIVALS = 12  # and then of those that fit about as well
ALIKE = Q(95, 100)  # of the votes, or of the points on copper, that a placement has that fits about as well
NOWHERE = "no placement"
UPSIDE_DOWN = 2  # the turn of `placement.FORMS` that a tool's setting makes


class Rival(NamedTuple):
    """Another change that fits about as well and has another answer, or none where it was not tried."""

    change: Change
    answer: Optional[answers.Answer] = None


class Hint(NamedTuple):
    """What was changed and what `check` says then. `changes` are all that were made in that copy, in their order, this
    one the last; `setting` is the tool's that would make it so; `explains` says that it leaves less than half of the
    findings; with a `rival` it is not known whether it is right."""

    kind: str
    change: Union[Change, NowherePlaced]
    answer: answers.Answer
    changes: Tuple[Change, ...] = ()
    setting: str = ""
    is_besides: bool = False
    explains: bool = False
    rival: Optional[Rival] = None


class Trial(NamedTuple):
    """What `check` says of a package, or both bounds where only they can be asked; `report` is then the upper one's.
    `refusals` are those of the package and of a bound, and `changes` what was changed in it."""

    package: Package
    answer: answers.Answer
    report: Optional[Report] = None
    ties: Ties = Ties()
    refusals: Tuple[Refusal, ...] = ()
    changes: Tuple[Change, ...] = ()

    @property
    def status(self) -> int:
        return self.answer.status

    def missing(self) -> int:
        return len(self.report.bare)

    def rank(self) -> Tuple[int, int]:
        opens, shorts, missing, parted = self.ties.counts(self.report)
        return missing, opens + shorts + parted

    def is_rival(self, other: "Trial", base: "Trial") -> bool:
        """Whether it has other faults than another, about as many points with copper, and no so many faults, for what
        was changed, that it cannot be meant."""
        most = max(other.missing(), (1 - ALIKE) * len(self.report.points))
        is_better = base.report is None or self.leaves_little_of(base)
        return self.rank() != other.rank() and self.missing() <= most and is_better and not self.is_wanting()

    def leaves_little_of(self, base: "Trial") -> bool:
        """Whether it has less than half of the faults of another."""
        return sum(self.rank()) * 2 < sum(base.rank())

    def is_misplaced(self) -> bool:
        """More than one point of ten has no copper."""
        return self.report is not None and self.missing() * 10 > len(self.report.points)

    def is_wanting(self) -> bool:
        """So much is wrong that something else than the copper may be."""
        return (
            self.report is not None
            and self.status != 0
            and (self.is_misplaced() or self.rank()[1] * 3 > len(self.report.names) + 3)
        )

    def is_refused_for(self, kind: str) -> bool:
        return any(it.kind == kind for it in self.refusals)


class Trials:
    """Changed copies, each in a folder of its own beside the package."""

    def __init__(self, program, ties):
        self.program, self.ties, self.looked = program, ties, {}

    def holes(self, package):
        """How the holes of a package lie on its pads, looked at once."""
        if package.folder not in self.looked:
            self.looked[package.folder] = drill_placement.Holes(package)
        return self.looked[package.folder]

    def trial(self, told, changes=()):
        """The answer on a judged package, by bounds where it is refused for its copper."""
        if told.report or not told.refusal or not told.refusal.has_bounds():
            return self.plain(told, changes)
        from boardnet_show.geometry import exact  # few boards want them, and loading takes longer than a small board
        from boardnet_show.judging import (  # few boards want them, and loading takes longer than a small board
            two_bounds,
        )

        try:
            both, _, high = two_bounds.judge(self.program, told.package, self.ties)
        except exact.Refused as why:
            stops = why.refusal if isinstance(why, two_bounds.SideRefused) else None
            answer = answers.without_bounds(told.status, told.line, told.refusal, str(why), stops)
            return Trial(told.package, answer, refusals=tuple(filter(None, [told.refusal, stops])), changes=changes)
        return Trial(told.package, both.answer, high.report, self.ties, (told.refusal,), changes)

    def plain(self, told, changes):
        return Trial(
            told.package,
            self.ties.answer(told),
            told.report,
            self.ties,
            (told.refusal,) if told.refusal else (),
            changes,
        )

    def of(self, base, change, files=None, manifest=None):
        """The answer on a copy of what was tried before, with other files or another manifest."""
        try:
            copy = base.package.changed(beside(base.package, "tried"), files, manifest)
            return self.trial(judged.judge(self.program, copy), (*base.changes, change) if change else base.changes)
        except Stop as stop:
            return Trial(base.package, answers.stopped(stop))


def hint(kind, trial, words="", rival=None):
    return Hint(kind, trial.changes[-1], trial.answer, trial.changes, words, rival=rival)


class Likely:
    """Copies by likely changes, each with its share of the votes, the most first: tried until one agrees, and then all
    that have nearly as many. `found` are the trials with a report."""

    def __init__(self, trials, base, changes):
        self.base, self.found, self.unseen, least = base, [], None, None
        for number, (share, change, files) in enumerate(changes):
            if share < (least or 0) or least is None and number >= TRIED:
                break
            if number >= TRIED + MOST_RIVALS:
                self.unseen = Rival(change)
                break
            answer = trials.of(base, change, files)
            self.found += [answer] if answer.report else []
            if answer.status == 0 and least is None:
                least = share * ALIKE

    def best(self):
        """The trial with the fewest faults, or None."""
        return min(self.found, key=Trial.rank, default=None)

    def rival(self):
        """What fits about as well as the best, with other faults, or None."""
        best = self.best()
        rivals = (it for it in self.found if it.is_rival(best, self.base))
        return next((Rival(it.changes[-1], it.answer) for it in rivals), self.unseen)


def decimals(trials, base):
    """Every reading of numbers without a point that fits, with its answer; where no hole says which fits, those that
    agree."""
    from .drill_decimals import implied

    found = [(on, trials.of(base, change, files)) for change, files, on in implied(base.package)]
    found = [(on, answer) for on, answer in found if answer.report]
    for on, answer in found:
        rivals = (it for many, it in found if many >= on * ALIKE and it.is_rival(answer, base))
        rival = next((Rival(it.changes[-1], it.answer) for it in rivals), None)
        if on or answer.status == 0:
            yield hint("decimals", answer, rival=rival), answer


def labelled(trials, base):
    """The order of layers that the files themselves tell, where it is not refused."""
    for change, manifest in as_labelled(base.package):
        answer = trials.of(base, change, manifest=manifest)
        if answer.report:
            yield hint("layers", answer), answer


def layers(trials, base):
    """The order of layers that surface points ask for, where it leaves fewer faults."""
    for change, manifest in layerings(base.package):
        answer = trials.of(base, change, manifest=manifest)
        if answer.report and answer.rank() < base.rank():
            yield hint("layers", answer), answer


def recoded(rule, trials, base):
    """Access codes read otherwise, where that leaves fewer faults."""
    for change, files in access_codes.recoded(base.package, *rule):
        answer = trials.of(base, change, files)
        if answer.report and answer.rank() < base.rank():
            yield hint("access codes", answer), answer


def coded(trials, base):
    """Access codes that are no layer of the board read otherwise, where the netlist is taken so."""
    for rule in access_codes.RULES:
        for change, files in access_codes.recoded(base.package, *rule):
            answer = trials.of(base, change, files)
            if answer.report:
                yield hint("access codes", answer), answer


def best(trials, base, kind, changes, names):
    """The best of some changes, where it leaves fewer faults."""
    likely = Likely(trials, base, changes)
    answer = likely.best()
    if answer is None or answer.rank() >= base.rank():
        return []
    wanted = "mirrored drills" if kind == "drills" and answer.changes[-1].turn == UPSIDE_DOWN else kind
    return [(hint(kind, answer, setting(base.package, wanted, names), likely.rival()), answer)]


def drills(trials, base):
    """Drill files whose holes miss the pads moved onto them: all by the same change, then the first few each by its
    own."""
    if not base.package.manifest.drills or not base.rank()[1] or base.is_misplaced():
        return
    holes = trials.holes(base.package)
    if not holes.off:
        return
    together = best(trials, base, "drills", drill_placement.moved_drills(holes, holes.off), holes.off)
    yield from together
    if not together or together[0][1].status:
        yield from each_alone(trials, together[0][1] if together else base, holes)


def each_alone(trials, base, holes):
    for name in holes.off[:TRIED] if len(holes.off) > 1 else ():
        left = trials.holes(base.package)
        for found, answer in (
            best(trials, base, "drills", drill_placement.moved_drills(left, [name]), [name]) if name in left.off else ()
        ):
            yield found, answer
            base = answer


def copper(trials, base):
    """The copper moved, where netlist and drills fit each other and neither fits it."""
    if base.is_misplaced() and base.package.manifest.drills:
        holes = trials.holes(base.package)
        if holes.off and drill_placement.fit_each_other(base.package, holes):
            yield from best(
                trials,
                base,
                "copper",
                drill_placement.moved_copper(base.package, holes),
                base.package.manifest.copper[:1],
            )


def best_placement(trials, base):
    """The best of the likeliest placements, or None."""
    likely = Likely(trials, base, placements(base.package, trials.holes(base.package).off))
    answer = likely.best()
    words = setting(base.package, "placement", base.package.manifest.copper[:1]) if answer else ""
    return (hint("placement", answer, words, likely.rival()), answer) if answer else None


def nowhere(base, best):
    """That no placement fits, with the answer on the best that was tried."""
    return Hint(NOWHERE, NowherePlaced(best.missing(), len(base.report.points)), best.answer, best.changes)


def placed(trials, base):
    """The best placement, and drills and layers once more, where they leave fewer faults and less than one point of
    five without copper."""
    best = best_placement(trials, base)
    if best is None:
        return
    first, last, further = best[1], best[1], []
    for step in (layers, drills) if first.rank() < base.rank() else ():
        for found, answer in step(trials, last) if last.status and (last.is_wanting() or last.missing()) else ():
            further.append((found, answer))
            last = answer
    if first.rank() >= base.rank() or last.missing() * 5 > len(last.report.points):
        if base.missing() * 2 > len(base.report.points):
            yield nowhere(base, first), first
        return
    yield best
    yield from further


def arranged(trials, base):
    """Layers in another order, and the netlist in another place."""
    if base.missing() * 2 <= len(base.report.points):
        for found, answer in layers(trials, base):
            yield found, answer
            base = answer
    if base.is_misplaced():
        yield from placed(trials, base)


def fitted(trials, base):
    """Hints on a board that was judged, each on top of those before it."""
    last = base
    for step in (*(partial(recoded, rule) for rule in access_codes.RULES), drills, copper, arranged):
        if last.status == 0 or step is arranged and not last.is_wanting():
            break
        for found, answer in step(trials, last):
            yield found._replace(is_besides=last is not base and found.kind != NOWHERE), answer
            last = answer


def all_hints(program, told, ties):
    trials = Trials(program, ties)
    base = trials.trial(told)
    for kind, changed in ((WRONG_LAYER, labelled), (IMPLIED_DECIMALS, decimals), (BAD_ACCESS, coded)):
        if base.is_refused_for(kind) and not base.report:
            found = list(changed(trials, base))
            yield from (each for each, _ in found)
            if found:
                base = min((answer for _, answer in found), key=Trial.rank)
    if base.report and base.status:
        for found, answer in fitted(trials, base):
            yield found._replace(explains=found.kind != NOWHERE and answer.leaves_little_of(base))


def explain(found):
    """Whether some hint explains more than half of the findings."""
    return any(each.explains for each in found)


def hints(program, told, ties=Ties()):
    """What may be wrong with a judged package, each with the answer of `check` on a changed copy."""
    if not told.package.manifest:
        return []
    found = []
    try:
        found.extend(all_hints(program, told, ties))
    except (Stop, OSError, ValueError):
        pass  # a hint changes no status: what was found so far is told
    return found
