"""One board, from its files to its findings: each step gives a value to the next."""
import copy
import os

from boardnet_show.base.statuses import FAULT, REFUSED, UNDECIDED, BadCopper, Stop, fault_of
from boardnet_show.extras import requested
from boardnet_show.findings.board import Board
from boardnet_show.findings.explained import Explained, title_of
from boardnet_show.findings.finding import with_short_names
from boardnet_show.formats import gerber_attributes, ipc356, report
from boardnet_show.intake import mending, netlist_files, package
from boardnet_show.judging import answers, building, judged, net_ties, nothing_judged
from boardnet_show.netlists import own_names
from boardnet_show.output.shown import Shown


def shapes_of(program, told):
    """The shapes of the pieces, or None and why they are not known."""
    from boardnet_show.judging import board_copper  # a board that agrees has no copper looked at

    try:
        return board_copper.shapes_of_judged(program, told), ""
    except BadCopper as why:
        return None, str(why)


def labels_of(program, told):
    """The names that the copper files give their pieces, by the program's own reading of them."""
    files = {name: told.package.read(name) for name in told.package.manifest.copper}
    if not any(gerber_attributes.has_names(data, b".N") for data in files.values()):
        return None
    # `x2` passes over attributes in comments.
    written = {name: gerber_attributes.written(data) for name, data in files.items()}
    changed = {name: data for name, data in written.items() if data != files[name]}
    its = told.package.changed(package.beside(told.package, "named"), changed) if changed else told.package
    answer = program.x2(its)
    if answer.status not in (0, 1):
        return None
    try:
        own = report.Report(answer.out)
    except report.BadReport:
        return None
    return {record - 1: own.names[name] for record, _, name, _ in own.points}


def package_notes(files):
    """What was taken as what, where the manifest was made here."""
    notes = [f"taken as {word}" for word in files.guessed]
    if files.left_out:
        notes.append(f"left out, {len(files.left_out)} of the folder's files: " + "; ".join(files.left_out))
    passed_over = (
        netlist_files.note(files.manifest.netlist, mending.read(files, files.manifest.netlist))
        if files.manifest
        else ""
    )
    return notes + ([passed_over] if passed_over else [])


def by_own_names(files, asked):
    """Has the board judged by the copper's own names where there is no netlist or where it is asked; answers the
    notes."""
    if not files.manifest:
        return []
    if files.manifest.netlist and not asked.labels:
        files.own = own_names.made_before(files)
        return []
    from boardnet_show.netlists import (  # most boards want neither, and loading takes longer than a small board
        pad_names,
        pin_names,
    )

    told = pad_names.use(files, asked.no_drills)
    return told + (pin_names.differences(files) if files.theirs else [])


# ---- what is found on a judged board


def looked_at(program, told, seen, wants_picture):
    """The findings of a judged board."""
    records = ipc356.records(told.package.read(told.package.manifest.netlist))
    shapes, why = shapes_of(program, told) if seen.answer.status == 1 or wants_picture else (None, "")
    named = labels_of(program, told) if seen.ties.shorts(told.report) else None
    program.progress.begin("looking for the places")
    board = Board(told.package, told.report, records, shapes, named, seen.ties)
    seen = seen._replace(board=board, reports=(told.report, told.report))
    if seen.answer.status or not told.report.agrees:
        from boardnet_show.findings import findings

        seen = seen._replace(findings=findings.all_findings(board), flood=findings.flood(told.report))
    nothing = nothing_judged.why_nothing(told.report) if seen.answer.status == 0 else ""
    if nothing:
        seen = seen._replace(answer=answers.nothing(nothing))
    return seen.noted(
        *nothing_judged.unnamed_notes(board), *net_ties.lost(seen.ties, told.report), *([why] if why else [])
    )


def declared_files(seen):
    """The files that what is declared has changed."""
    return tuple(dict.fromkeys(name for it in seen.declared for name in it.files))


def of_the_files_that_came(program, told, seen):
    """The answer on copies with whether it is proved of the files themselves."""
    if not told.package.rewritten():
        return seen
    from boardnet_show.judging import between_command  # of most boards no copy is judged

    return seen._replace(answer=between_command.exact(program, told, seen.answer, seen.ties, declared_files(seen)))


def bounded(program, told, seen, asked):
    """What bounds say of a board that is refused."""
    from boardnet_show.judging import two_bounds

    bounds = two_bounds.bounded(program, told, seen.ties)
    if bounds:
        from boardnet_show.judging import between_command

        bounds = between_command.answer_of_between(
            program, told, bounds, seen.ties, requested.wants_copper(asked), declared_files(seen)
        )
        seen = seen._replace(bounds=bounds, answer=bounds.answer).noted(*bounds.notes)
        if bounds.sides:
            seen = looked_at_between(program, told.package, seen, asked)
    if told.package.between:
        seen = seen.noted(*net_ties.lost(seen.ties, told.package.between[1].report))
    return seen


def with_others(program, files, seen):
    """The answer on a refused board with what else would stop it."""
    refusal = seen.answer.refusal
    if seen.answer.status != REFUSED or not refusal or seen.answer.no_bounds or not files.manifest:
        return seen
    from boardnet_show.judging import obstacles  # few boards are refused

    behind = (*obstacles.others(program, files, refusal), *seen.answer.behind)
    return seen._replace(answer=seen.answer._replace(behind=behind))


def looked_at_between(program, files, seen, asked):
    """The findings of a board between bounds, over the lower one."""
    from boardnet_show.findings import between_bounds, findings

    answer, low, high = files.between
    wants_picture = asked.page or asked.svg or asked.rdb
    shapes, why = (
        shapes_of(program, low) if answer.findings or wants_picture or requested.wants_copper(asked) else (None, "")
    )
    named = labels_of(program, low) if seen.ties.shorts(low.report) else None
    program.progress.begin("looking for the places")
    board = between_bounds.board_of(low, answer.sides[0], shapes, named, seen.ties)
    seen = seen._replace(
        audit=low.audit,
        reports=(low.report, high.report),
        board=board,
        findings=between_bounds.Findings(board).of(answer),
        flood=findings.flood(high.report),
    )
    if wants_picture and shapes is not None:
        seen = seen._replace(wider=wider(program, files, board, high))
    return seen.noted(*nothing_judged.unnamed_notes(board), *([why] if why else []))


def wider(program, files, board, high):
    """Where the upper of two bounds is wider; nothing where its pieces are not known."""
    from boardnet_show.findings import between_bounds
    from boardnet_show.judging import upper_copper

    try:
        return between_bounds.wider(board, *upper_copper.above(program, high, files.sides))
    except BadCopper:
        return ()


def hinted(program, told, seen):
    """What changed copies say, where a board is refused or differs."""
    from boardnet_show.fitting import hints  # most boards want none, and loading takes longer than a small board

    found = hints.hints(program, told, seen.ties)
    findings = [it.without_suggestion() for it in seen.findings] if hints.explain(found) else seen.findings
    return seen._replace(hints=found, findings=findings)


def explained(program, told, seen, asked, signed):
    """All that is known of a judged board; `signed` are the waivers that are declared."""
    if told.report:
        seen = looked_at(program, told, seen, asked.page or asked.svg or requested.wants_copper(asked))
        seen = of_the_files_that_came(program, told, seen)
    if told.status == 3:
        seen = bounded(program, told, seen, asked)
        seen = with_others(program, told.package, seen)
    if signed or asked.waive:
        from . import waived  # few boards have waivers

        seen = waived.with_waivers(program, told, seen, signed, asked)
    if told.status == 3 or seen.answer.status == 1:
        seen = hinted(program, told, seen)
    if seen.board and seen.answer.status in (0, 1, UNDECIDED):
        from boardnet_show.bounds.files import (  # most boards stop here, and loading takes longer than a small board
            widthless_contours,
        )

        seen = seen.noted(*widthless_contours.notes(told.package))
    if seen.board:
        names, short = seen.board.report.names, seen.board.report.short_names
        seen = seen._replace(findings=with_short_names(seen.findings, names, short))
    return seen


def looked_for(program, told, seen, asked, signed):
    """What is found on a board besides, and all that is known of it by what is signed for of that."""
    found = requested.found(program, told, seen, asked)
    if signed or asked.waive:
        from . import waived

        return waived.with_besides(program, told, seen, found, signed, asked)
    return seen, found


def of_files(files, seen):
    """The same with what was made of the files first: mends, and a netlist of the copper's own names."""
    stale = sum(it.is_stale for it in seen.declared) + len(seen.stale)
    answer = seen.answer._replace(
        declared=len(seen.declared),
        waived=len(seen.waived),
        stale=stale,
        mends=len(files.mends),
        advice=mending.way_out(files, seen.answer.refusal),
        is_by_own_names=bool(files.own) and seen.answer.status in own_names.ANSWERS,
        is_trial=building.is_trial(),
    )
    return seen._replace(
        answer=answer, mends=files.mends, flattened=sorted(files.flattened), unflattened=dict(files.outside)
    )


# ---- one board


def declarations_of(path, asked, taken):
    """What reads all that is declared of a PATH whose files are in a folder; `taken` are changes by hints."""

    def read(home):
        beside = os.path.join(home, package.DECLARATIONS)
        if not (taken or asked.declare or getattr(asked, "with") or os.path.exists(beside) or package.is_archive(path)):
            return None
        from . import declared  # most boards have none, and loading takes longer than a small board

        return declared.of(path, home, asked, taken)

    return read


def sorted_by(its):
    return its.sorted_files() if its else package.Sorted()


def mended_and_changed(files, its, asked, progress):
    """Mends the files, and makes the declared changes; answers all that is declared."""
    is_declared = its and files.manifest
    if is_declared:
        from . import declared

        digits = declared.digits_read(files, its)
    mending.mend(files, progress, asked.yes, sorted_by(its).taken)
    return declared.made(files, its, digits) if is_declared else []


def agrees_without(path, asked, program, scratch, its, ties):
    """A note where the files as they came agree, so that what is declared of them does not fit any more."""
    inner = os.path.join(scratch, "undeclared")
    os.makedirs(inner)
    try:
        files = package.opened(path, asked, inner, declared=lambda _: its.sorted_files())
        by_own_names(files, asked)
        mending.mend(files, program.progress, asked.yes, its.sorted_files().taken)
        agrees = ties.answer(judged.judge(program, files)).status == 0
    except Stop:  # they are not judged so
        agrees = False
    return ["what is declared does not fit these files any more: without its changes they agree"] if agrees else []


def opened(path, asked, scratch, declared):
    """The package of a PATH; where it wants a yes, all is said that it is wanted for."""
    try:
        return package.opened(path, asked, scratch, declared=declared)
    except package.Unconfirmed as unconfirmed:
        raise mending.with_readings(unconfirmed) from None


def keep(files, seen, folder):
    """Keeps the files as they were judged, with what is declared of them still."""
    if seen.ties.ties:
        files.put(package.TIES, seen.ties.file_text().encode())
    if seen.declared or seen.waived or seen.stale or seen.unlooked:
        from . import declared

        files.put(package.DECLARATIONS, declared.kept_text(seen).encode())
    its = seen.answer.of_files
    package.keep(files, seen.report, folder, its.asked_on.folder if its and its.is_proved else "")


def show(path, asked, program, scratch):
    """What is told of one PATH, whatever becomes of it."""
    if not asked.take_hints:
        return shown_once(path, asked, program, os.path.join(scratch, "first"), ())
    from . import declared

    # Waivers on the command line name findings of the answer that is told, and files are kept of that one.
    first = copy.copy(asked)
    first.waive, first.keep = [], None
    shown = shown_once(path, first, program, os.path.join(scratch, "first"), ())
    taken = declared.agreeing(shown.hints) if shown.hints else ()
    if taken or asked.waive or asked.keep:
        has_hints = bool(shown.hints)
        shown = shown_once(path, asked, program, os.path.join(scratch, "taken"), taken)
        return shown if taken or not has_hints else shown._replace(seen=shown.seen.noted(declared.NONE_TAKEN))
    return shown._replace(seen=shown.seen.noted(declared.NONE_TAKEN)) if shown.hints else shown


def shown_once(path, asked, program, scratch, taken):
    """The same by hints that are taken."""
    shown = nothing_yet(path)
    try:
        os.makedirs(scratch)
        read = declarations_of(path, asked, taken)
        files = opened(path, asked, scratch, lambda home: sorted_by(read(home)))
        its = read(files.around)
        package.need_netlist(files, asked)
        own = by_own_names(files, asked)
        own_names.take_whole(files)
        ties = net_ties.declared(asked.tie, files, its.ties() if its else ())
        shown = shown._replace(seen=shown.seen._replace(ties=ties))
        said = mended_and_changed(files, its, asked, program.progress)
        shown = shown._replace(seen=shown.seen._replace(declared=said, taken=files.taken))
        told = judged.judge(program, files)
        shown = shown._replace(
            seen=shown.seen._replace(
                answer=ties.answer(told), audit=told.audit, report=told.text or b"", notes=own + package_notes(files)
            )
        )
        signed = its.waivers() if its else ()
        seen = explained(program, told, shown.seen, asked, signed)
        shown = shown._replace(seen=of_files(told.package, seen))
        if shown.status == 1 and any(it.files for it in shown.seen.declared):
            seen = seen.noted(*agrees_without(path, asked, program, scratch, its, ties))
            shown = shown._replace(seen=of_files(told.package, seen))
        seen, found = looked_for(program, told, seen, asked, signed)
        shown = shown._replace(seen=of_files(told.package, seen), requested=found)
        shown = shown._replace(requested=requested.made(program, told, shown.seen, found, asked, scratch))
        if asked.keep:
            keep(files, shown.seen, asked.keep)
    except BrokenPipeError:
        raise
    except Exception as fault:
        shown = stopped(fault_of(path, fault), shown)
    return shown


def nothing_yet(path: str) -> Shown:
    return Shown(path, Explained(title_of(path), answers.Answer(0, answers.EXACT, "")))


def stopped(stop: Stop, shown: Shown) -> Shown:
    """What is told where something ended it: of a fault nothing that was known before."""
    shown = nothing_yet(shown.path) if stop.status == FAULT else shown
    seen = shown.seen._replace(answer=answers.stopped(stop))
    return shown._replace(seen=seen, requested=shown.requested._replace(besides=()))
