"""A record to keep with an order: which files were judged and how, by which program, and the reports whole; and its
verification.

docs/using/testhouse.md has the form. What a record says is never trusted: its files are compared with those that are
there, its reports are audited again, and its answer is compared with today's.
"""
import datetime
import hashlib
import json
import os
import subprocess
from functools import lru_cache

from boardnet_show.base.statuses import REFUSED, UNREADABLE, Stop
from boardnet_show.base.wording import counted, spoken
from boardnet_show.findings.besides import Requested, lacking, outcome
from boardnet_show.formats import indented_json
from boardnet_show.judging.program import TOOLS
from boardnet_show.output.sentences import answers, declarations, hints, made_first
from boardnet_show.output.sentences import notes as sentences


FORM = 1
RECORD = "record"
TOP = os.path.dirname(TOOLS)
FEW = 8
# What is compared beside files and reports, with the words for it.
COMPARED = (
    ("status", "the status"),
    ("line", "the answer"),
    ("mends", "the mends"),
    ("ties", "the ties"),
    ("declared", "what is declared"),
    ("hints", "the hints"),
)
# What is said of a file of which a sum is another one.
UNLIKE = {
    "came": "is another file",
    "judged": "was judged as another text",
    "lower": "has another copy with the least copper",
    "upper": "has another copy with the most copper",
}


def sum_of(data):
    return hashlib.sha256(data).hexdigest()


def sum_of_path(path):
    """The sum of a file, None where there is none."""
    try:
        with open(path, "rb") as file:
            return sum_of(file.read())
    except OSError:
        return None


# ---- what is recorded


@lru_cache()
def version_text():
    """What `--version` prints, of an installed program or of a checkout."""
    try:
        with open(os.path.join(TOOLS, "version"), encoding="utf-8") as file:
            return file.read()
    except OSError:
        pass
    try:
        told = subprocess.run(
            [os.path.join(TOP, "boardnet"), "--version"],
            stdin=subprocess.DEVNULL,
            stdout=subprocess.PIPE,
            stderr=subprocess.DEVNULL,
        )
        return told.stdout.decode("utf-8", "replace")
    except OSError:
        return ""


def of_program(program):
    said = dict(line.partition(" ")[::2] for line in version_text().splitlines() if " " in line)
    return {
        "version": said.get("boardnet"),
        "commit": said.get("commit"),
        "toolchain": said.get("toolchain"),
        "sources": said.get("sources"),
        "program": sum_of_path(program.path),
    }


def roles(package):
    """What each file is, the manifest first."""
    told = package.manifest
    found = {package.name: "manifest"}
    for name in told.names() if told else ():
        found[name] = "netlist" if name == told.netlist else "drills" if name in told.files[told.layers :] else "copper"
    return found


def packages(told):
    """Each package that was judged, by what it is of the board: itself, or both bounds."""
    if told.package.between:
        return list(zip(("lower", "upper"), told.package.between[1:]))
    return [("board", told)] if told.report else []


def files_of(told):
    package, between = told.package, [(word, its.package) for word, its in packages(told) if word != "board"]
    for name, role in roles(package).items():
        came = package.came.get(name)
        yield {
            "name": name,
            "role": role,
            "came": came and sum_of_path(came),
            "judged": sum_of_path(package.path(name)),
            **{word: sum_of_path(its.path(name)) for word, its in between},
        }


def between_of(seen):
    """What `between` was asked and said of the files as they came, where the answer is proved of them."""
    its = seen.answer.of_files
    if not its or not its.is_proved:
        return None
    folder, words, text = its.asked_on
    counts, said = (read_text(os.path.join(folder, name)) for name in (words[-1], text))
    return {"read": list(its.read), "but_for": list(its.but_for), "words": list(words), "counts": counts, "text": said}


def read_text(path):
    with open(path, encoding="ascii") as file:
        return file.read()


def of(program, told, seen, its):
    """The record of a board, whatever became of it; `its` is what was asked for besides."""
    reports = [
        {"of": word, "line": its.line, "audit": its.audit, "sha256": sum_of(its.text), "text": its.text.decode("ascii")}
        for word, its in packages(told)
    ]
    return {
        "boardnet_record": FORM,
        "date": datetime.datetime.now(datetime.timezone.utc).strftime("%Y-%m-%dT%H:%M:%SZ"),
        "board": seen.title,
        "program": of_program(program),
        "status": seen.answer.status,
        "line": answers.line(seen.answer),
        "beside": answers.whole_line(seen.answer, [sentences.words(it.said) for it in its.besides]),
        "files": list(files_of(told)),
        "mends": [it.words for it in told.package.mends],
        "ties": seen.ties.file_text().splitlines(),
        "declared": declarations.notes(seen),
        "hints": [hints.words(hint) for hint in seen.hints],
        "notes": list(map(sentences.words, [*made_first.all_of(seen), *its.notes])),
        "reports": reports,
        "between": between_of(seen),
    }


def record_text(record):
    return indented_json.indented(record) + "\n"


# ---- verification


def once(pairs):
    """An object whose names differ: a reader and a program might take another one of two."""
    if len(dict(pairs)) < len(pairs):
        raise ValueError
    return dict(pairs)


def read(path):
    try:
        with open(path, "rb") as file:
            record = json.loads(file.read().decode("utf-8"), object_pairs_hook=once)
    except OSError as error:
        raise Stop(UNREADABLE, f"{path}: {error.strerror}") from None
    except (ValueError, RecursionError):
        raise Stop(REFUSED, f"{path}: no record, since it is no JSON") from None
    if not isinstance(record, dict) or record.get("boardnet_record") != FORM:
        raise Stop(REFUSED, f"{path}: no record of the form {FORM}")
    return record


def listed(record, key):
    """The entries of a list, none where it is no list of objects."""
    its = record.get(key)
    return [it for it in its if isinstance(it, dict)] if isinstance(its, list) else []


def repeated(record, key, of):
    """What a list says of one thing twice: the second of two may hide the first."""
    names = [str(it.get(of)) for it in listed(record, key)]
    yield from (
        f"the record has {counted(names.count(name), 'entry', 'entries')} of {name} under {key}"
        for name in dict.fromkeys(names)
        if names.count(name) > 1
    )


def file_differences(record, now):
    """Files that are not those of the record, as they came and as they were judged."""
    old, new = ({str(it.get("name")): it for it in listed(its, "files")} for its in (record, now))
    for name in [*old, *(name for name in new if name not in old)]:
        if name not in new or name not in old:
            yield f"{name} is {'here and not in the record' if name in new else 'in the record and not here'}"
            continue
        for key in ("came", "judged", "lower", "upper"):
            if old[name].get(key) != new[name].get(key):
                how = UNLIKE[key]
                yield f"{name} {how}: SHA-256 {old[name].get(key)} in the record, {new[name].get(key)} here"
                break


def report_differences(program, told, record):
    """Reports of the record that the audit does not confirm on these files, or that are others than today's."""
    ours = dict(packages(told))
    said = {str(it.get("of")): str(it.get("text")) for it in listed(record, "reports")}
    if ours and not said:
        yield "the record has no report"
    for it in listed(record, "reports"):
        if it.get("sha256") != sum_of(str(it.get("text")).encode("utf-8", "replace")):
            yield f"its report of the {it.get('of')} has not the SHA-256 that the record says"
        known = ours.get(str(it.get("of")))
        if known and (it.get("line"), it.get("audit")) != (known.line, known.audit):
            yield (
                f"the answer on the {it.get('of')} was {it.get('line')} ({it.get('audit')}), and is"
                f" {known.line} ({known.audit})"
            )
    for word, text in said.items():
        if word not in ours:
            yield f"its report of the {word} is of no board here"
            continue
        answer = program.audit(ours[word].package, text.encode("utf-8", "replace"))
        if answer.status != 0:
            yield (
                f"its report of the {word} does not pass the audit on these files:"
                f" {answer.out.decode('ascii', 'replace').strip() or answer.line}"
            )
        elif text.encode("utf-8", "replace") != ours[word].text:
            yield f"its report of the {word} is another text than today's, though the audit confirms it"
    yield from (f"the record has no report of the {word}" for word in ours if said and word not in said)


def differences(program, told, record, now):
    """All that is not as the record says."""
    yield from (*repeated(record, "files", "name"), *repeated(record, "reports", "of"))
    yield from file_differences(record, now)
    yield from report_differences(program, told, record)
    for key, word in COMPARED:
        # Older records say nothing of declarations.
        was = record.get(key, [] if key == "declared" else None)
        if was != now[key]:
            yield f"{word} was {told_of(was)}, and is {told_of(now[key])}"


def told_of(value):
    return (
        spoken([str(it) for it in value], FEW)
        if isinstance(value, list) and value
        else "none"
        if value in ([], None)
        else str(value)
    )


def judged_as(told):
    """What the reports are of."""
    if told.package.between:
        return "both copies, with the least and the most copper"
    return "the copies that were judged" if told.package.mends or told.package.flattened else "them"


def verify(program, told, seen, its, path):
    """Whether a record is of these files."""
    try:
        record, now = read(path), json.loads(record_text(of(program, told, seen, its)))
        unlike = list(differences(program, told, record, now))
    except Stop as why:
        return Requested([lacking(RECORD, f"not verified: {why}")])
    other = {
        key: value
        for key, value in now["program"].items()
        if not isinstance(record.get("program"), dict) or record["program"].get(key) != value
    }
    others = ", ".join(f"{key} {value}" for key, value in other.items())
    more = [f"the record of {record.get('date')} is by another program: now {others}"] if other else []
    more += [f"unlike the record: {words}" for words in unlike]
    passes = f"its report passes the audit on {judged_as(told)}"
    same = f"the record is of these files, and {passes if packages(told) else 'neither it nor today has a report'}"
    words = f"unlike the record in {counted(len(unlike), 'point')}" if unlike else same
    return Requested(
        [outcome(RECORD, len(unlike), 0, words, tuple(("record", each, ()) for each in unlike))], notes=more
    )
