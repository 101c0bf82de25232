"""The Debian package of what is installed: its control files, and the tree as Debian's policy wants it."""
import gzip
import hashlib
import os
import re
import shutil
import subprocess
import tempfile
import time
from typing import Dict, NamedTuple, Tuple

import install

# By the number in the head of a program.
ARCHITECTURES = {0x3E: "amd64", 0xB7: "arm64"}
MAINTAINER = re.compile(r"[^<>\n\r\t]*[^<>\s] <[^<>@\s]+@[^<>@\s]+>")
CONTROL = """Package: boardnet
Version: {version}
Section: electronics
Priority: optional
Architecture: {architecture}
Depends: {depends}
Recommends: python3 (>= 3.8)
Installed-Size: {size}
Maintainer: {maintainer}
Description: proved bare-board netlist verifier
 Says whether the copper of a bare board joins exactly the points that its
 netlist joins, from Gerber X2, XNC and IPC-D-356A files.
 .
 Commit {commit}, proved with {toolchain};
 sources {sources}.
"""
CHANGELOG = """boardnet ({version}) unstable; urgency=medium

  * Built from commit {commit}; /usr/share/doc/boardnet/CHANGELOG.md has what
    a release brings.

 -- {maintainer}  {day}
"""
# Python's own command compiles the modules where they are installed, for the versions that are there, and takes that away again.
SCRIPTS = {
    "postinst": """#!/bin/sh
set -e
if [ "$1" = configure ] && command -v py3compile >/dev/null 2>&1; then
  py3compile -p boardnet /usr/lib/boardnet
fi
""",
    "prerm": """#!/bin/sh
set -e
if command -v py3clean >/dev/null 2>&1; then
  py3clean -p boardnet
elif [ -d /usr/lib/boardnet ]; then
  find /usr/lib/boardnet -name __pycache__ -type d -prune -exec rm -rf '{}' +
fi
""",
}

Files = Dict[str, Tuple[bytes, int]]


class Refused(Exception):
    """Why no package is made."""


class Facts(NamedTuple):
    """What the control files say; `time` counts seconds from 1970."""

    version: str
    time: int
    maintainer: str
    commit: str
    toolchain: str
    sources: str


def maintainer_of(text: str) -> str:
    """Who answers for the package, as Debian writes it."""
    if not MAINTAINER.fullmatch(text):
        raise Refused(f"--maintainer wants 'NAME <ADDRESS>', as 'Ann Example <ann@example.org>', and not {text!r}")
    return text


def architecture(program: bytes) -> str:
    found = ARCHITECTURES.get(int.from_bytes(program[18:20], "little")) if program[:4] == b"\x7fELF" else None
    if not found:
        raise Refused("the program is none of ELF, or for a processor that has no name here")
    return found


def depends(program: bytes) -> str:
    """The packages of the shared libraries that the program names, as dpkg-shlibdeps says it."""
    with tempfile.TemporaryDirectory(prefix="boardnet-") as scratch:
        install.put(
            os.path.join(scratch, "debian", "control"),
            b"Source: boardnet\n\nPackage: boardnet\nArchitecture: any\n",
            0o644,
        )
        install.put(os.path.join(scratch, "program"), program, 0o755)
        how = {"stdout": subprocess.PIPE, "stderr": subprocess.PIPE, "stdin": subprocess.DEVNULL, "cwd": scratch}
        done = subprocess.run(["dpkg-shlibdeps", "-O", "program"], env=dict(os.environ, LC_ALL="C"), **how)
    found = re.search(rb"^shlibs:Depends=(.*)$", done.stdout, re.M)
    if done.returncode or not found:
        why = done.stderr.decode("utf-8", "replace").strip().split("\n")[-1]
        raise Refused(f"dpkg-shlibdeps does not say what the program depends on: {why}")
    return found[1].decode()


def packed(data: bytes) -> bytes:
    return gzip.compress(data, 9, mtime=0)


class Package:
    """The package of these files, which lie below a prefix."""

    def __init__(self, files: Files, facts: Facts):
        for name, package in (("dpkg-deb", "dpkg"), ("dpkg-shlibdeps", "dpkg-dev")):
            if not shutil.which(name):
                raise Refused(
                    f"there is no {name} on the PATH, of Debian's package {package}, which a Debian package wants"
                )
        program = files["lib/boardnet/boardnet"][0]
        self.facts, self.architecture, self.depends = facts, architecture(program), depends(program)
        self.files = {name: it for name, it in files.items() if "__pycache__" not in name.split("/")}
        day = time.strftime("%a, %d %b %Y %H:%M:%S +0000", time.gmtime(facts.time))
        changelog = CHANGELOG.format(day=day, **facts._asdict())
        self.files["share/doc/boardnet/changelog.gz"] = packed(changelog.encode()), 0o644
        manual = "share/man/man1/boardnet.1"
        self.files[manual + ".gz"] = packed(self.files.pop(manual)[0]), 0o644

    def name(self) -> str:
        return f"boardnet_{self.facts.version}_{self.architecture}.deb"

    def control(self) -> Files:
        """The files of the package's control archive."""
        size = sum(len(data) + 1023 >> 10 for data, _ in self.files.values())
        text = CONTROL.format(architecture=self.architecture, depends=self.depends, size=size, **self.facts._asdict())
        sums = [f"{hashlib.md5(data).hexdigest()}  usr/{inside}\n" for inside, (data, _) in sorted(self.files.items())]
        scripts = {name: (script.encode(), 0o755) for name, script in SCRIPTS.items()}
        return {"control": (text.encode(), 0o644), "md5sums": ("".join(sums).encode(), 0o644), **scripts}

    def write(self, path: str) -> None:
        with tempfile.TemporaryDirectory(prefix="boardnet-") as scratch:
            os.chmod(scratch, 0o755)
            for inside, (data, mode) in self.files.items():
                install.put(os.path.join(scratch, "usr", inside), data, mode)
            for name, (data, mode) in self.control().items():
                install.put(os.path.join(scratch, "DEBIAN", name), data, mode)
            words = ["dpkg-deb", "--root-owner-group", "-Zxz", "--build", scratch, path]
            environment = dict(os.environ, SOURCE_DATE_EPOCH=str(self.facts.time))
            subprocess.run(words, check=True, stdout=subprocess.DEVNULL, env=environment)
