#!/usr/bin/env python3
"""Copies the built program, its tools, documents, a man page and completions: install.py TOP PREFIX

DESTDIR in the environment stands before PREFIX where the files are written, and is no part of what they say.
"""
import os
import subprocess
import sys

sys.dont_write_bytecode = True
sys.path.insert(0, os.path.dirname(os.path.abspath(__file__)))
import compiled  # noqa: E402
import kept  # noqa: E402
import texts  # noqa: E402

COMMAND = """#!/bin/sh
# boardnet, installed. The program and its tools lie in home, beside the folder of this command.
home=$(readlink -f -- "$0")
home=${home%/bin/*}/lib/boardnet
program=$home/boardnet

. "$home/launch/front.sh"

version() { while IFS= read -r line; do printf '%s\\n' "$line"; done <"$home/version"; }
ready() { [ -x "$program" ] || { say "$program is not there: install it again"; exit 127; }; }

front "$@"
"""

# What is copied from tools/: the front, the words, and the tools with their modules.
FILES = ("launch/front.sh", "manifest", "show", "start.py")
FOLDERS = ("boardnet_show",)
# What a reader has of the checkout, and the boards of `selftest`.
DOCUMENTS = ("README.md", "CHANGELOG.md", "docs", "examples")
BOARDS = ("opens_and_shorts", "two_layer")


def read(path):
    with open(path, "rb") as file:
        return file.read(), 0o755 if os.access(path, os.X_OK) else 0o644


def tools_of(top):
    """The names of the tools' files below tools/."""
    tools, found = os.path.join(top, "tools"), list(FILES)
    for folder in FOLDERS:
        found += [name for name in below(tools, folder) if "__pycache__" not in name.split(os.sep)]
    return found


def below(top, name):
    """The names of a file or of all files in a folder, from the top."""
    found = [name] if os.path.isfile(os.path.join(top, name)) else []
    for at, folders, names in os.walk(os.path.join(top, name)):
        folders.sort()
        found += [os.path.relpath(os.path.join(at, each), top) for each in sorted(names)]
    return found


def documents(top):
    """The pages and examples, and the boards of `selftest`, which are no documents."""
    found = {
        f"share/doc/boardnet/{name}": (read(os.path.join(top, name))[0], 0o644)
        for part in DOCUMENTS
        for name in below(top, part)
    }
    boards = [name for board in BOARDS for name in below(top, f"examples/{board}") if not name.endswith(".md")]
    found.update((f"lib/boardnet/{name}", (read(os.path.join(top, name))[0], 0o644)) for name in boards)
    return found


def files(top):
    """What is installed below a prefix: each file's bytes and mode by its name."""
    found = {"lib/boardnet/boardnet": (read(kept.program_of(top))[0], 0o755), **documents(top)}
    for name in tools_of(top):
        found[f"lib/boardnet/{name}"] = read(os.path.join(top, "tools", name))
    modules = [name for name in tools_of(top) if name.endswith(".py")]
    found.update(
        (f"lib/boardnet/{name}", (data, 0o644))
        for name, data in compiled.of_sources(os.path.join(top, "tools"), modules).items()
    )
    told = subprocess.run([os.path.join(top, "boardnet"), "--version"], stdout=subprocess.PIPE, check=True).stdout
    made = {
        "lib/boardnet/version": told,
        "lib/boardnet/help.txt": texts.installed().encode(),
        "share/man/man1/boardnet.1": texts.man(texts.release()).encode(),
        "share/bash-completion/completions/boardnet": texts.bash().encode(),
        "share/zsh/site-functions/_boardnet": texts.zsh().encode(),
    }
    found.update((name, (data, 0o644)) for name, data in made.items())
    found["bin/boardnet"] = COMMAND.encode(), 0o755
    return found


def put(path, data, mode):
    """Writes a file whole, so that a program that runs keeps its own."""
    os.makedirs(os.path.dirname(path), exist_ok=True)
    kept.write_whole(path, data, mode)


def install(top, prefix, stage=""):
    """Writes all below the prefix, itself below a stage, and returns the paths without the stage."""
    prefix, wrote = os.path.abspath(prefix), []
    for name, (data, mode) in files(top).items():
        wrote.append(os.path.join(prefix, name))
        put(stage + wrote[-1], data, mode)
    return wrote


def main(words):
    if len(words) != 2:
        sys.exit(__doc__)
    try:
        print("\n".join(install(*words, os.environ.get("DESTDIR", ""))))
    except (OSError, subprocess.CalledProcessError) as error:
        print(f"boardnet: not installed: {error}", file=sys.stderr)
        return 1
    return 0


if __name__ == "__main__":
    sys.exit(main(sys.argv[1:]))
