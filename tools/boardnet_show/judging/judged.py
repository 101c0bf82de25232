"""What the program says of a package: `check`, and always `audit` on that report. Files that `check` refuses for a
macro are flattened."""
from typing import NamedTuple, Optional

from boardnet_show.base import refusals
from boardnet_show.base.statuses import REFUSED, UNJUDGED, BadCopper, Stop
from boardnet_show.formats import ipc356
from boardnet_show.formats.gerber_lexer import begins
from boardnet_show.formats.report import BadReport, Report
from boardnet_show.intake import own_declarations
from boardnet_show.intake.package import Package

from .program import Answer


class Judged(NamedTuple):
    """The program's answer; `report` and `text` are None where a file is refused, `audit` is what the audit says of
    the report."""

    package: Package
    status: int
    line: str
    report: Optional[Report]
    text: Optional[bytes]
    audit: str
    refusal: Optional[refusals.Refusal] = None


def flattens(program, package, refusal):
    """Rewrites the file that a refusal names, and every other with a macro. Whether there is something new to check."""
    if not package.manifest or not refusal or (refusal.form, refusal.kind) != (refusals.GERBER, refusals.MACRO):
        return False
    named, done = refusal.file, False
    for name in dict.fromkeys(package.manifest.copper):
        if (
            name in package.flattened
            or name in package.outside
            or name != named
            and not begins(package.read(name), b"AM")
        ):
            continue
        answer = program.flatten(package, name)
        if answer.status == 0:
            package.before[name] = package.read(name)
            package.put(name, answer.out)
            package.flattened.add(name)
            done = done or name == named
        else:
            package.outside[name] = answer.line
    return done


def checked(program, package):
    """What `check` says, but where a file says of itself what does not fit and `check` does not come to it (`said`)."""
    answer = program.check(package)
    wrong = own_declarations.amiss(package) if answer.status in (0, 1, REFUSED) else None
    if wrong:
        return Answer(REFUSED, b"", wrong.line(), wrong)
    while answer.status == 3 and flattens(program, package, answer.refusal):
        answer = program.check(package)
    return answer


def judge(program, package):
    """The answer on a package, with its report audited."""
    answer = checked(program, package)
    if answer.status not in (0, 1):
        return Judged(package, answer.status, answer.line, None, None, "", answer.refusal)
    audit = program.audit(package, answer.out)
    told = audit.out.decode("ascii", "replace").strip() or audit.line
    if audit.status != 0:
        raise Stop(
            UNJUDGED if audit.status == 1 else audit.status, f"`audit` does not confirm the report of `check`: {told}"
        )
    try:
        report = Report(answer.out)
    except BadReport as fault:
        raise Stop(UNJUDGED, str(fault)) from None
    names = ipc356.spoken(report.names, ipc356.aliases(package.read(package.manifest.netlist)))
    report.names = ipc356.spoken(names, package.whole)
    report.short_names = {whole: name for whole, name in zip(report.names, names) if whole != name}
    return Judged(package, answer.status, answer.line, report, answer.out, told)


def flat_of(program, files):
    """How the normal form of a copper file is had: what was flattened before `check` has it already."""

    def flatten(name):
        if name in files.flattened:
            return files.read(name)
        answer = program.flatten(files, name)
        if answer.status != 0:
            raise BadCopper(answer.line)
        return answer.out

    return flatten
