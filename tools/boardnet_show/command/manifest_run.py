"""Writes the manifest m.json of a folder, or of a zip archive, of a board's files.

    tools/manifest FOLDER|ARCHIVE.zip [--netlist FILE] [--yes] [--no-drills] [--mend]

Copper layers are known by their attribute TF.FileFunction,Copper,L<n>, plated drill files by the comment
TF.FileFunction,Plated,<from>,<to>, the netlist by its IPC-D-356A records. Copper and drill files without attributes are
taken by other evidence (Layer_Physical_Order, %LN, their names, ;TYPE=), which is told; it counts only with --yes.
Every other file is left out, and the script says why. It writes no manifest, and ends with 1, where the board would not
be whole. An archive's files go to a folder of its name beside it, also then.

  --netlist FILE  the netlist, where the folder has several
  --yes           what is taken by other evidence than attributes is right
  --no-drills     the board has no plated hole, although the netlist has records of through holes
  --mend          writes mended copies beside files that `check` would refuse and that say otherwise what is meant,
                  and a manifest of these
"""
import argparse
import os
import sys

from boardnet_show.base import writing
from boardnet_show.base.statuses import Stop
from boardnet_show.base.wording import printable
from boardnet_show.intake import archives, gathering
from boardnet_show.intake.evidence import drill_numbers, readings
from boardnet_show.intake.file_names import Refused, shown
from boardnet_show.intake.mends import mended_files as mends

INTERRUPTED = 130
USAGE = "manifest FOLDER|ARCHIVE.zip [--netlist FILE] [--yes] [--no-drills] [--mend]"


def say(text):
    print(printable(text), file=sys.stderr)


def words(given):
    parser = argparse.ArgumentParser(prog="manifest", usage=USAGE, add_help=False, allow_abbrev=False)
    parser.add_argument("place", metavar="FOLDER")
    parser.add_argument("--netlist")
    parser.add_argument("--yes", action="store_true")
    parser.add_argument("--no-drills", action="store_true")
    parser.add_argument("--mend", action="store_true")
    if {"--help", "-h"} & set(given):
        print(__doc__ or f"{USAGE}\n", end="")  # Python may be told to leave texts out
        sys.exit(0)
    return parser.parse_args(given)


def folder_of(place):
    """The folder of a board's files, and of an archive the folder of each file in it."""
    if os.path.isdir(place):
        return place, {}
    if not os.path.isfile(place):
        raise Refused(f"{shown(place)} is no folder and no zip archive")
    folder, homes = archives.unpack(place)
    say(f"unpacked to {shown(folder)}")
    return folder, homes


def write(asked):
    folder, homes = folder_of(asked.place)
    found = gathering.gather(folder, homes)
    try:
        plan = gathering.Plan(found, asked.netlist, asked.no_drills)
    finally:
        for name, why in found.left_out:
            say(f"left out: {shown(name)}: {why}")
    for name, what, why in plan.guessed:
        say(f"{'taken' if asked.yes else 'would be taken'} as {what}: {shown(name)}: {why}")
    if plan.guessed and not asked.yes:
        raise Refused(
            "the attributes do not say all of this: if it is right, say --yes; else export Gerber X2 and XNC files with"
            " attributes, or write m.json by hand"
        )
    plan.manifest = mended(folder, plan.manifest, asked)
    path = os.path.join(folder, "m.json")
    writing.write(path, plan.manifest_text())
    if not plan.has_points:
        say(
            f"manifest: {plan.netlist} HAS NO TEST POINTS (no 317 and no 327 record): `check` will judge nothing and"
            " agree"
        )
    manifest = plan.manifest
    print(
        f"{shown(path)}: {len(manifest['copper'])} copper, {len(manifest['drills'])} drill files, netlist"
        f" {manifest['netlist']}"
    )


def bytes_of(folder, name):
    with open(os.path.join(folder, name), "rb") as file:
        return file.read()


def mended(folder, manifest, asked):
    """The manifest with mended copies, where they are asked for; else it is said that `show` makes them."""
    drills, made = [it["file"] for it in manifest["drills"]], {}
    read = lambda name: made.get(name) or bytes_of(folder, name)
    settling = drill_numbers.Settling(folder, lambda: list(map(read, manifest["copper"])))
    for name, data, told, _ in mends.of_files(
        lambda name: bytes_of(folder, name), manifest["copper"], drills, manifest["netlist"], settling
    ):
        made[name] = data
        for it in told:
            say(f"{'mended' if asked.mend else 'to be mended'}: {shown(it.words)}")
    found = list(readings.of_files(read, manifest["copper"], manifest["netlist"]))
    for it in found:
        made[it.file] = it.data
    need_yes(settling.sentences() + [it.sentence() for it in found], asked.yes)
    copies = {name: mends.name_beside(name) if asked.mend else name for name in made}
    for name in made if asked.mend else ():
        writing.write(os.path.join(folder, copies[name]), made[name])
    if copies and not asked.mend:
        say(
            "manifest: `boardnet show` makes these mends; `boardnet manifest FOLDER --mend` writes mended copies, which"
            " `check` takes"
        )
    return mends.renamed(manifest, copies)


def need_yes(doubts, is_yes):
    """Says how files are read by the board alone, and wants a yes for it."""
    for it in doubts:
        say(f"{'taken' if is_yes else 'would be taken'}: {shown(it)}")
    if doubts and not is_yes:
        raise Refused(readings.ASK)


def main(given):
    writing.notes()
    asked = words(given)
    try:
        write(asked)
    except Refused as why:
        say(f"manifest: {why}")
        return 1
    except Stop as why:
        say(f"manifest: {shown(str(why))}")
        return 1
    except OSError as error:
        say(f"manifest: {shown(str(error.filename or asked.place))}: {error.strerror}")
        return 1
    except KeyboardInterrupt:
        return INTERRUPTED
    return 0
