"""A board with copper outside the profile between two boards within it: what holds of both holds of the board.

Each piece of the lower board lies in copper of the board, joined in itself, and the board's copper in pieces of the
upper one; drills, netlist and names are the same. So what is joined below is joined on the board, and what is joined
there is joined above (the law `verdicts_decide` of the crate `covers`): no opens and no missing points below and no
shorts above make the board agree; shorts below, and opens and missing points above, are the board's (a point of such an
open may be missing there). Other opens and missing points below, and other shorts above, are undecided. That the two
boards are such bounds is not proved, but where the program says so (`between_command`): this script makes them, by
whole numbers, and its tests compare them with fractions.
"""
import copy
import hashlib
import os
from functools import partial
from typing import NamedTuple, Optional

from boardnet_show.base import workers
from boardnet_show.base.refusals import Refusal
from boardnet_show.base.statuses import UNDECIDED, fault_of
from boardnet_show.formats import ipc356
from boardnet_show.formats.gerber_lexer import line_numbers, nth_word
from boardnet_show.geometry.exact import Refused
from boardnet_show.intake.package import beside

from . import answers, judged, nothing_judged
from .answers import Answer
from .both_reports import Joint
from .net_ties import Ties, lost
from .upper_joins import Differing

SIDES = ("lower", "upper")


class SideRefused(Refused):
    """One of both boards is refused, which one, and why."""

    def __init__(self, words, refusal: Optional[Refusal], number: int):
        super().__init__(words)
        self.refusal, self.number = refusal, number


class Bounded(NamedTuple):
    """The answer on a board between two, and what both say; `sides` are what both boards are made of, `notes` what
    else is to be told."""

    answer: Answer
    findings: list
    left_out: list
    sides: tuple = ()
    notes: tuple = ()

    @property
    def status(self) -> int:
        return self.answer.status


class Made(NamedTuple):
    """What is kept of the bounds of a copper file, as `Copper` and `Sides` have it."""

    replaced: int
    is_bent: bool
    rows: dict
    unlike: dict
    lost: list
    sources: tuple


class Sides(NamedTuple):
    """The two packages of a board, with the words' sources by side and file, and what is left out below. `rows` are by
    file those of the commands that `between` reads, None where a file has other copper outside the profile; `unlike`
    are the commands that make other copper on both sides; `is_bent` says that regions with arcs are among those of
    `rows`."""

    packages: tuple
    sources: tuple
    left_out: list
    rows: dict
    unlike: dict
    is_bent: bool


def outline_of(package):
    """The outline of a board with negative files, looked for once."""
    from boardnet_show.bounds.files import profile_files, profiles

    if not package.outline:
        texts = [package.read(name).decode("latin-1") for name in dict.fromkeys(package.manifest.copper)]
        package.outline = profiles.outline_of(profile_files.texts(package.around), texts)
    return package.outline


def sides_of(package, name, is_coarse=False):
    from boardnet_show.bounds.files import (  # most boards have no bounds, and loading takes longer than a small board
        bounded_file,
    )

    try:
        return bounded_file.of_text(package.read(name).decode("latin-1"), lambda: outline_of(package), is_coarse)
    except Refused as why:
        raise Refused(f"{name}: {why}") from None
    except Exception as fault:
        raise fault_of(package.told_path(name), fault) from fault


def kept_of(data, copper):
    """(what is kept of a file's bounds, the texts of both sides, whether these are the same on every board)."""
    rows = copper.rows if copper.replaced == len(copper.rows) else None
    made = Made(
        copper.replaced,
        copper.is_bent,
        rows,
        copper.unlike,
        told_once(data, copper.lost),
        tuple(side.sources for side in copper.sides),
    )
    texts = [side.file_text().encode("latin-1") for side in copper.sides]
    return made, texts, not copper.negative  # negative files lie within a board's outline


def within(data):
    """The same of a file that needs no bounds; None where it is not known to be one."""
    from boardnet_show.bounds.files import within_profile  # as above

    return (
        (Made(0, False, {}, set(), [], ((), ())), [], True)
        if within_profile.is_within(data.decode("latin-1"))
        else None
    )


def kept_elsewhere(work):
    """The same in a process of its own, which knows no outline."""
    from boardnet_show.bounds.files import bounded_file  # as above

    _, data, is_coarse = work
    return within(data) or kept_of(data, bounded_file.of_text(data.decode("latin-1"), None, is_coarse))


def kept_here(package, work):
    name, data, is_coarse = work
    return within(data) or kept_of(data, sides_of(package, name, is_coarse))


def told_once(data, lost):
    """What a file leaves out, each kind once: with its first command, that one's line, and how many more there are."""
    kinds = {}
    for what in lost:
        words, _, command = what.rpartition(" at command ")
        kinds.setdefault(words, []).append(int(command))
    lines = line_numbers(data, [its[0] for its in kinds.values()])
    return [
        f"{words} at command {its[0]}, line {lines[its[0]]}" + (f", and {len(its) - 1} more" if len(its) > 1 else "")
        for words, its in kinds.items()
    ]


def key_of(package, name, is_coarse):
    return hashlib.sha256(package.read(name)).digest(), is_coarse


def made_once(package, names, is_coarse, told):
    """The bounds of each copper file with the texts of both sides, which copies of the package that have the file
    too read again."""
    known = {name: package.made.get(key_of(package, name, is_coarse), (None, [])) for name in names}
    is_known = {name: bool(made and (paths or not made.replaced)) for name, (made, paths) in known.items()}
    works = [(name, package.read(name), is_coarse) for name in names if not is_known[name]]
    done = workers.mapped(kept_elsewhere, works, [len(data) for _, data, _ in works], partial(kept_here, package))
    for number, name in enumerate(names, 1):
        if told:
            told("making bounds, layer", number, len(names))
        if is_known[name]:
            made, paths = known[name]
            yield name, made, [read_whole(path) for path in paths]
            continue
        made, texts, is_alone = next(done)
        if is_alone:
            package.made[key_of(package, name, is_coarse)] = made, []
        yield name, made, texts


def read_whole(path):
    with open(path, "rb") as file:
        return file.read()


def of_package(package, is_coarse=False, told=None):
    """Both sides of each copper file that holds something outside the profile; the others are the same files. Coarse
    ones have areas within regions as `between` wants them. `told` hears which file is made."""
    files, sources, left_out, rows, unlike, replaced, is_bent = ({}, {}), ({}, {}), [], {}, {}, 0, False
    for name, copper, texts in made_once(package, [*dict.fromkeys(package.manifest.copper)], is_coarse, told):
        is_bent = is_bent or copper.is_bent
        left_out += [f"{name}: {what}" for what in copper.lost]
        replaced += copper.replaced
        rows[name] = copper.rows
        unlike[name] = copper.unlike
        for text, its, data, origin in zip(texts, copper.sources, files, sources):
            if copper.replaced:
                data[name], origin[name] = text, its
    if any(map(os.path.isabs, files[0])):
        raise Refused("a copper file is named by its whole path, so it has no copy that could be changed")
    if not replaced:
        raise Refused("nothing in the copper files is of a kind of which the least and the most are known")
    made = tuple(package.changed(beside(package, side), data) for side, data in zip(SIDES, files))
    for name in files[0]:
        if key_of(package, name, is_coarse) in package.made:
            package.made[key_of(package, name, is_coarse)][1][:] = [its.path(name) for its in made]
    return Sides(made, sources, left_out, rows, unlike, is_bent)


def is_same_board(one, other):
    """Whether two packages have the same files."""
    return one.manifest.json_text() == other.manifest.json_text() and all(
        one.read(name) == other.read(name) for name in one.manifest.names()
    )


def both_judged(program, sides, before=()):
    """What the program says of both packages, each report audited; one like another that was judged before is not
    judged again."""
    told = []
    for number, (side, package) in enumerate(zip(SIDES, sides.packages)):
        known = before and before[number]
        answer = known if known and is_same_board(known.package, package) else judged.judge(program, package)
        if answer.report is None:
            raise SideRefused(f"the {side} board: {answer.line}", answer.refusal, number)
        told.append(answer)
    return told


def answered(program, package, sides, low, high, ties):
    """The joint answer of two judged packages."""
    records = ipc356.records(package.read(package.manifest.netlist))
    joint = Joint(low.report, high.report, records, package.manifest, ties)
    findings = joint.findings()
    if not all(it.is_sure for it in findings):
        findings = [*map(Differing(program, low, high, sides.sources).placed, findings)]
    certain, doubt = (sum(it.is_sure is sure for it in findings) for sure in (True, False))
    certain += len(lost(ties, high.report))
    status = 0 if joint.agrees() else 1 if certain else UNDECIDED
    made = len(ties.ties) - len(ties.parted(low.report)) if ties.ties else None
    answer = Answer(status, answers.BETWEEN, "", ties=made, both=answers.Both(low.line, high.line, certain, doubt))
    return Bounded(answer, findings, sides.left_out, sides.sources)


def judged_by(program, package, sides, ties, before=()):
    """(answer, lower, upper) of both sides of a package; Refused where one is. `before` is such an answer by other
    sides."""
    low, high = both_judged(program, sides, before[1:])
    return answered(program, package, sides, low, high, ties), low, high


def judge(program, package, ties):
    """The same by sides that are made once; Refused where no bounds can be given."""
    if package.no_bounds:
        raise Refused(package.no_bounds)
    if not package.between:
        package.sides = of_package(package, told=program.progress.step)
        package.between = judged_by(program, package, package.sides, ties)
    return package.between


def own_refusal(package, why):
    """The refusal of one of both boards as that of the user's file; None where that has not the same word."""
    refusal, sides = why.refusal, package.sides
    origin = sides.sources[why.number].get(refusal.file) if sides else None
    if origin is None:
        return refusal if sides else None
    number = origin[refusal.place - 1] if 0 < refusal.place <= len(origin) else 0
    copy = nth_word(sides.packages[why.number].read(refusal.file), refusal.place)
    own = nth_word(package.read(refusal.file), number) if number else None
    return refusal._replace(place=number, byte=own.start) if copy and own and copy.text == own.text else None


def refused_answer(told, why):
    """The answer where no bounds can be given: by what truly stops the board, where that is a file of the user's
    own."""
    refusal = own_refusal(told.package, why) if isinstance(why, SideRefused) and why.refusal else None
    if refusal:
        return answers.blocked(told.status, refusal, told.refusal)
    stops = why.refusal if isinstance(why, SideRefused) else None
    return answers.without_bounds(told.status, told.line, told.refusal, str(why), stops)


def bounded(program, told, ties=Ties()):
    """The answer on a refused package whose copper is outside the profile, or None where bounds have nothing to say."""
    if not told.refusal or not told.package.manifest or not told.refusal.has_bounds():
        return None
    try:
        bounds, _, high = judge(program, told.package, ties)
    except Refused as why:
        return Bounded(refused_answer(told, why), [], [])
    nothing = "" if bounds.status else nothing_judged.why_nothing(high.report)
    return bounds._replace(answer=answers.nothing(nothing)) if nothing else bounds


def own_commands(report, manifest, sources):
    """The report with the user's commands in place of those of the copy."""
    told = copy.copy(report)
    if sources:
        by_file = [sources.get(name) for name in manifest.files]
        told.sources = [
            (file, by_file[file][command - 1] if by_file[file] else command, number, top, bottom)
            for file, command, number, top, bottom in report.sources
        ]
    return told
