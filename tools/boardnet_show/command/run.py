"""The command: its words, one board or a batch, what is written where, and the status."""
import os
import signal
import sys

from boardnet_show.base import garbage, writing
from boardnet_show.base.progress import Progress
from boardnet_show.base.scratch import Scratch
from boardnet_show.base.statuses import UNWRITABLE, Stop, fault_of
from boardnet_show.base.wording import printable
from boardnet_show.judging import building
from boardnet_show.judging.program import TOOLS, Program, found
from boardnet_show.output import text_lines

from . import options
from .batch import MOST_JOBS, jobs_of, judged_at_once, paths_of
from .one_board import show

LENGTH = "a length as 0.15, 0.15mm, 6mil or 0.006in"
SIGNALS = (signal.SIGINT, signal.SIGTERM, signal.SIGHUP)
ONE_BOARD = ("rdb", "svg", "keep", "ipc", "record", "verify", "declare", "write_declarations", "with", "waive")


class Interrupted(BaseException):
    """A signal that ends the run."""


def section():
    """The command's page in the help text."""
    with open(os.path.join(TOOLS, "help.txt"), encoding="ascii") as file:
        parts = file.read().split("\n= ")
    return "boardnet " + next(part for part in parts if part.startswith("show ")).strip() + "\n"


def words(given):
    """The caller's words; a wrong one ends with status 2."""
    asked = options.asked(given)
    if asked.help or asked.h:
        writing.write("-", section())
        sys.exit(0)
    if not asked.paths:
        options.wrong("it wants a folder, a zip archive or a manifest")
    asked.paths = paths_of(asked.paths)
    asked.jobs = jobs_of(asked.jobs) or options.wrong(f"--jobs wants a number from 1 to {MOST_JOBS}")
    if len(asked.paths) > 1 and asked.page == "-":
        options.wrong("--page of several boards wants a file, beside which their pages are written")
    for name in ONE_BOARD:
        if len(asked.paths) > 1 and getattr(asked, name):
            options.wrong(f"--{name.replace('_', '-')} is for one PATH")
    if asked.gaps is not None:
        from boardnet_show.extras import spacing

        asked.gaps = spacing.asked_distance(asked.gaps) or options.wrong(
            f"--gaps wants {LENGTH}, over 0 and at most 10 mm, with at most seven decimals"
        )
    if asked.necks is not None:
        from boardnet_show.extras import spacing

        asked.necks = spacing.asked_width(asked.necks)
        if asked.necks is None:
            options.wrong(f"--necks wants {LENGTH}, from 0 to 10 mm, with at most seven decimals")
    if asked.format not in (None, "text", "github"):
        options.wrong("--format is text or github")
    if asked.waive and not (asked.author or "").strip():
        options.wrong("--waive wants --author, who signs for it")
    if asked.at and not asked.svg:
        options.wrong("--at says which finding --svg draws")
    return asked


def status_of(all_shown):
    """0 where all agree, 1 where all were judged and some differ, else the status of the first that was not judged."""
    unjudged = [shown.status for shown in all_shown if shown.status not in (0, 1)]
    return unjudged[0] if unjudged else max(shown.status for shown in all_shown)


def printed(asked, all_shown):
    """What is printed."""
    if asked.format == "github":
        from boardnet_show.output import annotations

        rows = [row for shown in all_shown for row in annotations.rows(shown)]
    elif asked.q:
        rows = [row for shown in all_shown for row in text_lines.quiet(shown)]
        rows += [text_lines.quiet_total(all_shown)] if len(all_shown) > 1 else []
    elif len(all_shown) > 1:
        rows = [text_lines.summary(shown) for shown in all_shown] + total_of(all_shown)
    else:
        rows = text_lines.reader(all_shown[0], asked.all, asked.explain)
    return "".join(printable(row) + "\n" for row in rows)


def total_of(all_shown):
    """The last line of a batch."""
    return [text_lines.total(all_shown)] if len(all_shown) > 1 else []


def forms(asked, all_shown):
    """Each FILE that is asked for with its text, or with None where there is nothing to write."""
    first = all_shown[0]
    if asked.json:
        from boardnet_show.output import json_form

        yield asked.json, json_form.json_text(all_shown)
    if asked.junit:
        from boardnet_show.output import junit

        yield asked.junit, junit.junit_text(all_shown)
    if asked.sarif:
        from boardnet_show.output import sarif

        yield asked.sarif, sarif.sarif_text(all_shown)
    if asked.rdb:
        from boardnet_show.output import rdb

        yield asked.rdb, rdb.marker_database(first)
    if asked.ipc:
        yield asked.ipc, first.requested.tester and first.requested.tester.text
    if asked.record:
        from boardnet_show.extras import record

        yield asked.record, first.requested.record and record.record_text(first.requested.record)
    if asked.write_declarations:
        from . import declared

        yield asked.write_declarations, declared.written_text(first.seen, asked)
    if asked.page and len(all_shown) > 1:
        yield from pages(asked, all_shown)
    elif asked.page or asked.svg:
        yield from pictures(asked, first)


def pages(asked, all_shown):
    """The page of each board whose copper is known, and the list of all."""
    from boardnet_show.output import batch_page, page

    names = {
        shown.path: name
        for shown, name in zip(all_shown, batch_page.page_names(asked.page, all_shown).values())
        if shown.board and shown.board.shapes
    }
    for shown in all_shown:
        if shown.path in names:
            yield names[shown.path], page.page_html(shown)
    yield asked.page, batch_page.page_html(all_shown, names)


def pictures(asked, shown):
    if not shown.board or shown.board.shapes is None:
        if asked.page:
            from boardnet_show.output import record_page

            yield asked.page, shown.requested.record and record_page.page(shown)
        if asked.svg:
            yield asked.svg, None
        print(
            f"boardnet: no picture is drawn, since the copper of {printable(shown.path)} is not known", file=sys.stderr
        )
        return
    from boardnet_show.output import page, svg

    if asked.page:
        yield asked.page, page.page_html(shown)
    if asked.svg:
        yield asked.svg, svg.picture(shown, asked.at)


def write(asked, all_shown):
    """Writes what was asked for, and prints the rest. Where a form goes to the standard output, nothing else does:
    what is told goes to the standard error where there is no such form."""
    is_form = False
    for path, text in forms(asked, all_shown):
        is_form = is_form or path == "-"
        if text:
            writing.write(path, text)
        elif path == "-":
            print(printed(asked, all_shown), end="", file=sys.stderr)
    if not is_form:
        writing.write("-", printed(asked, all_shown))


def boards(asked, program):
    """Each PATH in turn, in a scratch folder of its own, or some at once."""
    if asked.jobs > 1 and len(asked.paths) > 1 and program.path:
        return judged_at_once(asked, program)
    all_shown = []
    for path in asked.paths:
        with Scratch() as scratch:
            all_shown.append(show(path, asked, program, scratch))
    return all_shown


def run(asked):
    progress = Progress(quiet=asked.q)
    try:
        all_shown = boards(asked, Program(None if building.checkout() else found(), progress))
        progress.begin("writing")
        progress.end()
        write(asked, all_shown)
        return status_of(all_shown)
    finally:
        progress.end()


def interrupted(number, _):
    """Ends the run; a second signal does not end its tidying."""
    for other in SIGNALS:
        signal.signal(other, passed_over)
    raise Interrupted(number)


def passed_over(*_):
    """Where a signal were ignored instead, Python would speak of one that came meanwhile."""


def main(given):
    asked = None
    writing.notes()
    garbage.collected()
    for number in SIGNALS:
        # What is ignored stays so, as nohup wants.
        if signal.getsignal(number) != signal.SIG_IGN:
            signal.signal(number, interrupted)
    try:
        asked = words(given)
        return run(asked)
    except Stop as stop:
        print(f"boardnet: {printable(str(stop))}", file=sys.stderr)
        return stop.status
    except Interrupted as why:
        # Python's own end would give signals their default back, so that one more of them changed the status.
        os._exit(128 + why.args[0])
    except BrokenPipeError:
        os.dup2(os.open(os.devnull, os.O_WRONLY), 1)
        return UNWRITABLE
    except Exception as fault:
        stop = fault_of(asked.paths[0] if asked else "show", fault)
        print(f"boardnet: {printable(str(stop))}", file=sys.stderr)
        return stop.status
