"""What else stops a refused board: the file that is refused gives way to nothing, and `check` is asked again."""
from typing import Iterator, Optional

from boardnet_show.base.refusals import GERBER, Refusal
from boardnet_show.base.statuses import REFUSED, Stop
from boardnet_show.intake.package import Package, beside

from .judged import judge
from .program import Program

MOST = 3  # further refusals that are looked for
DRILL = "drill"
# A copper file of nothing.
EMPTY = b"%FSLAX46Y46*%\n%MOMM*%\nM02*\n"


def without(package: Package, refusal: Refusal) -> Optional[Package]:
    """A copy of a package in which a refused file says nothing; None where it cannot do without."""
    folder = beside(package, "rest")
    if refusal.form == DRILL:
        drills = [row for row in package.manifest.values()["drills"] if row["file"] != refusal.file]
        return package.changed(folder, None, package.manifest.changed(drills=drills))
    return package.changed(folder, {refusal.file: EMPTY}) if refusal.form == GERBER else None


def others(program: Program, package: Package, refusal: Refusal) -> Iterator[Refusal]:
    """What `check` refuses of a board beside a refusal, where bounds have no answer for it."""
    rest: Optional[Package] = package.sides.packages[0] if package.sides else package
    for _ in range(MOST):
        try:
            rest = without(rest, refusal) if rest else None
            told = judge(program, rest) if rest else None
        except (OSError, Stop):
            return
        if not told or told.status != REFUSED or not told.refusal or told.refusal.file == refusal.file:
            return
        refusal = told.refusal
        if not refusal.has_bounds():
            yield refusal
