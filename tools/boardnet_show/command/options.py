"""The caller's words as they are written, before anything is asked of them."""
from types import SimpleNamespace

FLAGS = (
    "-q",
    "--all",
    "--explain",
    "--labels",
    "--yes",
    "--no-drills",
    "--no-cuts",
    "--audit-board",
    "--take-hints",
    "--help",
    "-h",
)
WITH_VALUES = (
    "--page",
    "--svg",
    "--at",
    "--json",
    "--junit",
    "--sarif",
    "--rdb",
    "--format",
    "--keep",
    "--netlist",
    "--ipc",
    "--like",
    "--gaps",
    "--necks",
    "--record",
    "--verify",
    "--declare",
    "--write-declarations",
    "--author",
    "--jobs",
)
OFTEN = ("--tie", "--with", "--waive")
USAGE = "boardnet show PATH.. [OPTION ..]; boardnet show --help prints all"


def key(option):
    return option.lstrip("-").replace("-", "_")


def nothing():
    """What is asked where there are no words."""
    asked = dict.fromkeys(map(key, FLAGS), False)
    asked.update(dict.fromkeys(map(key, WITH_VALUES)))
    return SimpleNamespace(paths=[], **asked, **{key(option): [] for option in OFTEN})


def plain(given):
    """The words where each option is written whole with its value behind it, and the paths stand together, as nearly
    all are; None where the parser is to judge them, which takes longer to load than a small board."""
    asked, rest, may_come = nothing(), iter(given), True
    for word in rest:
        if not word.startswith("-"):
            if not may_come:
                return None
            asked.paths.append(word)
            continue
        may_come = not asked.paths
        if word in FLAGS:
            setattr(asked, key(word), True)
            continue
        value = next(rest, None) if word in WITH_VALUES + OFTEN else None
        if value is None or value.startswith("-") and value != "-":
            return None
        if word in OFTEN:
            getattr(asked, key(word)).append(value)
        else:
            setattr(asked, key(word), value)
    return asked


def parser():
    import argparse

    made = argparse.ArgumentParser(prog="boardnet show", add_help=False, allow_abbrev=False, usage=USAGE)
    made.add_argument("paths", metavar="PATH", nargs="*")
    for name in FLAGS:
        made.add_argument(name, action="store_true")
    for name in WITH_VALUES:
        made.add_argument(name)
    for name in OFTEN:
        made.add_argument(name, action="append", default=[])
    return made


def asked(given):
    return plain(given) or parser().parse_args(given)


def wrong(why):
    """Ends with status 2."""
    parser().error(why)
