#!/usr/bin/env python3
"""Makes a tar archive of the built program, and a Debian package for a maintainer: package.py TOP FOLDER [--maintainer 'NAME <ADDRESS>']

They hold what `install` installs. Nothing is made where the checkout is changed, or its program is not noted as proved of its
sources: what is trusted is that note, which the launcher and the gate write behind a proof, and whoever can write to the checkout.
"""
import contextlib
import io
import os
import subprocess
import sys
import tarfile
from typing import List, Optional

sys.dont_write_bytecode = True
sys.path.insert(0, os.path.dirname(os.path.abspath(__file__)))
import debian  # noqa: E402
import install  # noqa: E402
import kept  # noqa: E402
import texts  # noqa: E402
from debian import Refused  # noqa: E402

# What of the checkout is in the package, or says how it is made.
PARTS = ("crates", "crates.txt", "boardnet", "tools", "HANDLES", *install.DOCUMENTS)


def git(top, *words):
    done = subprocess.run(
        ["git", "-C", top, *words], stdout=subprocess.PIPE, stderr=subprocess.DEVNULL, stdin=subprocess.DEVNULL
    )
    if done.returncode:
        raise Refused("this is no checkout of git with a commit, so nothing names its sources")
    return done.stdout.decode("utf-8", "replace")


def proved(top):
    """What the program is made of, where all is as it must be."""
    changed = git(top, "status", "--porcelain", "--", *PARTS).splitlines()
    if changed:
        raise Refused(
            f"the checkout is changed, so its commit does not name its sources: {'; '.join(it.strip() for it in changed[:3])}"
        )
    if not os.path.isfile(kept.program_of(top)):
        raise Refused("the program is not built: `./boardnet check examples/two_layer` proves and builds it")
    made = kept.noted(top)
    if not made:
        raise Refused(
            "nothing says that this program was proved: `bash .ci/run` proves and notes it; or remove crates/boardnet/out and have `./boardnet check examples/two_layer` prove and build it"
        )
    if made.sources != kept.sum_of_sources(top):
        raise Refused(
            "the program was proved of other sources: `./boardnet check examples/two_layer` proves and builds these"
        )
    return made


class Package:
    def __init__(self, top: str, maintainer: Optional[str]):
        self.made = proved(top)
        self.commit = git(top, "rev-parse", "--short=12", "HEAD").strip()
        self.time = int(git(top, "log", "-1", "--format=%ct"))
        self.version = f"{texts.release()}+{self.commit}"
        self.files = install.files(top)
        self.debian = maintainer and debian.Package(
            self.files, debian.Facts(self.version, self.time, maintainer, self.commit, *self.made)
        )

    def tar(self, path: str) -> None:
        """An archive of one folder, which can be moved; the same bytes of the same commit and program."""
        name = f"boardnet-{self.version}"
        with tarfile.open(path, "w:xz", format=tarfile.USTAR_FORMAT) as archive:
            for inside, (data, mode) in sorted(self.files.items()):
                entry = tarfile.TarInfo(f"{name}/{inside}")
                entry.size, entry.mode, entry.mtime = len(data), mode, self.time
                archive.addfile(entry, io.BytesIO(data))

    def make(self, folder: str) -> None:
        """Makes all, or nothing."""
        os.makedirs(folder, exist_ok=True)
        made = [(os.path.join(folder, f"boardnet-{self.version}.tar.xz"), self.tar)]
        if self.debian:
            made.append((os.path.join(folder, self.debian.name()), self.debian.write))
        try:
            for path, write in made:
                write(path + ".new")
            for path, _ in made:
                os.replace(path + ".new", path)
        finally:
            for path, _ in made:
                with contextlib.suppress(FileNotFoundError):
                    os.remove(path + ".new")
        print("\n".join(path for path, _ in made))


def main(words: List[str]) -> int:
    maintainer = words[3] if len(words) == 4 and words[2] == "--maintainer" else None
    if len(words) != (4 if maintainer is not None else 2):
        sys.exit(__doc__)
    try:
        Package(words[0], maintainer if maintainer is None else debian.maintainer_of(maintainer)).make(words[1])
    except Refused as why:
        print(f"boardnet: no package: {why}", file=sys.stderr)
        return 1
    except (OSError, subprocess.CalledProcessError) as error:
        print(f"boardnet: no package: {error}", file=sys.stderr)
        return 1
    if maintainer is None:
        print(
            "boardnet: no Debian package, since it wants somebody who answers for it: --maintainer 'NAME <ADDRESS>'",
            file=sys.stderr,
        )
    return 0


if __name__ == "__main__":
    sys.exit(main(sys.argv[1:]))
