"""What is declared of a board: in a file beside it or another, by options, and by hints that are taken."""
import os
from typing import Any, Dict, Iterator, List, NamedTuple, Optional, Sequence, Tuple

from boardnet_show.base.statuses import NOT_UNDERSTOOD, UNREADABLE, Stop
from boardnet_show.findings.explained import Explained
from boardnet_show.findings.waivers import Waiver
from boardnet_show.fitting import declaration_file, declared_changes
from boardnet_show.fitting.changes import Change, DecimalsRead
from boardnet_show.fitting.declaration_file import Declared, Reader
from boardnet_show.fitting.declared_changes import Declaration
from boardnet_show.fitting.hints import Hint
from boardnet_show.intake import package
from boardnet_show.intake.file_names import MOST_BYTES
from boardnet_show.intake.package import DECLARATIONS, Drilled, Sorted, Taken

OPTION, HINTS = "--with", "--take-hints"
NETLIST, NO_HOLES = "the netlist", Taken("the board", "without plated holes")
NONE_TAKEN = (
    "no hint is taken, since none agrees, or several do that are not one, or another fits as well that does not"
)
LISTS, WHOLE = ("moved", "files", "order"), ("decimals", "digits", "from", "to")


class Declarations(NamedTuple):
    """All that is declared: by the file, by options, and by hints that are taken, in this order."""

    files: Tuple[Declared, ...] = ()

    def all_of(self, name: str) -> List[Any]:
        return [it for its in self.files for it in getattr(its, name)]

    def sorted_files(self) -> Sorted:
        netlists = [its.netlist for its in self.files if its.netlist]
        return Sorted(
            tuple(self.all_of("taken")),
            tuple(self.all_of("drilled")),
            netlists[-1] if netlists else "",
            any(its.has_no_drills for its in self.files),
        )

    def ties(self) -> List[Tuple[str, str]]:
        """Each tie with where it is declared."""
        return [(text, its.source) for its in self.files for text in its.ties]

    def waivers(self) -> List[Waiver]:
        return self.all_of("waivers")


# ---- options


def value_of(text: str, source: str) -> Dict[str, Any]:
    """What an option declares: an object of JSON as in the file, or a word and then names with values, as `netlist
    moved=1.5,-2`."""
    import json  # few boards have such an option
    import shlex

    try:
        if text.lstrip().startswith("{"):
            its = json.loads(text, object_pairs_hook=declaration_file.once, parse_float=str)
            return dict(its)
        kind, *rest = shlex.split(text)
        pairs = [part.partition("=") for part in rest]
        return {"of": kind, **declaration_file.once([(name, option_value(name, value)) for name, _, value in pairs])}
    except (ValueError, RecursionError):
        raise Stop(
            NOT_UNDERSTOOD, f"{source} {text}: it is no object of JSON, and no words as `netlist moved=1.5,-2`"
        ) from None


def option_value(name: str, value: str) -> Any:
    if name in LISTS:
        return value.split(",")
    if name in WHOLE:
        return int(value)
    return value.replace("_", " ") if name == "turn" else value


def of_options(words: Sequence[str]) -> Declared:
    """What options declare: changes, plated drill files, and waivers."""
    its, reader = Declared(OPTION), Reader(OPTION)
    for text in words:
        value = value_of(text, OPTION)
        kind = value.get("of")
        if kind == "plated":
            its = its._replace(
                drilled=(*its.drilled, reader.drilled({key: it for key, it in value.items() if key != "of"}))
            )
        elif kind == "waiver":
            its = its._replace(
                waivers=(*its.waivers, reader.waiver({key: it for key, it in value.items() if key != "of"}))
            )
        else:
            its = its._replace(changes=(*its.changes, reader.change(digits_of_one(value))))
    return its


def digits_of_one(value: Dict[str, Any]) -> Dict[str, Any]:
    """The digits of one file, as an option names them, as in the file's list."""
    if value.get("of") == "digits" and "files" not in value:
        return {"of": "digits", "files": [{key: it for key, it in value.items() if key != "of"}]}
    return value


# ---- files


def read(path: str, source: str) -> Declared:
    try:
        with open(path, "rb") as file:
            data = file.read(MOST_BYTES + 1)
    except OSError as error:
        raise Stop(UNREADABLE, f"{path}: cannot be read: {error.strerror}") from None
    return declaration_file.of_bytes(data, source)


def beside(path: str, home: str) -> Optional[str]:
    """The file beside a manifest, in a folder or an archive, or beside an archive."""
    inside = os.path.join(home, DECLARATIONS)
    found = [inside] if os.path.isfile(inside) and not (os.path.isfile(path) and os.path.samefile(path, inside)) else []
    outside = package.beside_archive(path, DECLARATIONS) if package.is_archive(path) else None
    if outside and found:
        raise Stop(
            NOT_UNDERSTOOD,
            f"there is a {DECLARATIONS} in the archive and one beside it: keep one of them, or name one by --declare",
        )
    return outside or (found[0] if found else None)


def of(path: str, home: str, asked, taken: Sequence[Change] = ()) -> Optional[Declarations]:
    """What is declared of a PATH whose files are in a folder, with changes by hints; None where nothing is."""
    files = []
    if asked.declare:
        files.append(read(asked.declare, asked.declare))
    else:
        name = beside(path, home)
        files += [read(name, os.path.basename(name))] if name else []
    options = getattr(asked, "with")
    files += [of_options(options)] if options else []
    files += [Declared(HINTS, tuple(taken))] if taken else []
    return Declarations(tuple(files)) if files else None


# ---- what is made of it


def of_files(files, its: Declared) -> Iterator[Declaration]:
    """What is declared of which file is what; stale where the files say so themselves, or there is a manifest."""
    for row in its.taken:
        yield Declaration(row, its.source, row not in files.taken)
    for row in its.drilled:
        yield Declaration(row, its.source, not files.is_made)
    if its.netlist:
        yield Declaration(
            Taken(its.netlist, NETLIST), its.source, not files.is_made or files.manifest.netlist != its.netlist
        )
    if its.has_no_drills:
        yield Declaration(NO_HOLES, its.source, not files.is_made or bool(files.manifest.drills))


def digits_read(files, its: Declarations) -> List[Declaration]:
    """Reads the numbers of drill files as is declared, before what they may mean is looked for."""
    return [
        declared_changes.make(files, change, each.source)
        for each in its.files
        for change in each.changes
        if isinstance(change, DecimalsRead)
    ]


def made(files, its: Declarations, digits: Sequence[Declaration]) -> List[Declaration]:
    """Makes the declared changes of the files, in order, but for `digits` that are read before, and answers all that is
    declared."""
    rows = [Declaration(change, each.source, was_made=True) for each in its.files for change in each.made]
    rows += [row for each in its.files for row in of_files(files, each)]
    before = iter(digits)
    return rows + [
        next(before) if isinstance(change, DecimalsRead) else declared_changes.make(files, change, each.source)
        for each in its.files
        for change in each.changes
    ]


def agreeing(hints: Sequence[Hint]) -> Tuple[Change, ...]:
    """The changes of the one hint that agrees; nothing where none does, or several that are not one, or where another
    change than one of them fits about as well and has another answer."""
    unknown = {hint.change for hint in hints if hint.rival}
    agree = [hint.changes for hint in hints if hint.answer.status == 0 and hint.changes]
    found = {changes for changes in agree if not unknown & set(changes)}
    return found.pop() if len(found) == 1 else ()


# ---- what is written


def changes_of(seen: Explained, was_made: bool) -> Tuple[Change, ...]:
    return tuple(
        it.what
        for it in seen.declared
        if it.was_made == was_made and not it.is_stale and not isinstance(it.what, (Taken, Drilled))
    )


def waivers_of(seen: Explained) -> Tuple[Waiver, ...]:
    """Those that are of a finding, and those of kinds that were not looked for."""
    return tuple(dict.fromkeys([*(it.waiver for it in seen.waived), *seen.unlooked]))


def kept_text(seen: Explained) -> str:
    """What is still declared of files that were kept: their changes are made, and their manifest says what they are."""
    return declaration_file.file_text(
        Declared("", made=(*changes_of(seen, True), *changes_of(seen, False)), waivers=waivers_of(seen))
    )


def written_text(seen: Explained, asked) -> str:
    """What was taken and asked of a board, so that its next revision is judged alike."""
    drilled = tuple(it.what for it in seen.declared if isinstance(it.what, Drilled) and not it.is_stale)
    said = {it.what for it in seen.declared if isinstance(it.what, Taken) and not it.is_stale}
    netlists = [it.file for it in said if it.what == NETLIST]
    return declaration_file.file_text(
        Declared(
            "",
            changes_of(seen, False),
            changes_of(seen, True),
            tuple(seen.taken),
            drilled,
            tuple(it.equation() for it in seen.ties.ties if it.is_asked),
            waivers_of(seen),
            asked.netlist or (netlists[0] if netlists else ""),
            asked.no_drills or NO_HOLES in said,
        )
    )
