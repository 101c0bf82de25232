"""What is installed and packaged of a checkout, over a stand-in for its program, and the texts that are made of the help."""
import gzip
import importlib.util
import os
import shutil
import sys
from unittest import mock

from tests.fixtures import common

sys.path.insert(0, os.path.join(common.TOOLS, "launch"))
import compiled  # noqa: E402
import debian  # noqa: E402
import install  # noqa: E402
import kept  # noqa: E402
import package  # noqa: E402
import texts  # noqa: E402


class Installed(common.Case):
    """A checkout whose program is a stand-in, and what is installed of it."""

    def setUp(self):
        super().setUp()
        self.top = self.path("top")
        os.makedirs(self.top)
        shutil.copy(os.path.join(common.TOP, "boardnet"), self.top)
        shutil.copytree(
            common.TOOLS, os.path.join(self.top, "tools"), ignore=shutil.ignore_patterns("tests", "__pycache__")
        )
        for name in install.DOCUMENTS:
            source = os.path.join(common.TOP, name)
            (shutil.copytree if os.path.isdir(source) else shutil.copy)(source, os.path.join(self.top, name))
        self.write("top/.gitignore", "out/\n")
        self.write("top/crates.txt", "boardnet:\n")
        self.write("top/crates/boardnet/src/main.rt", "// a source\n")
        self.write("top/crates/boardnet/out/boardnet", '#!/bin/sh\necho ran "$@"\n', 0o755)

    def launch(self, *words, **environment):
        return self.run_words([os.path.join(self.top, "boardnet"), *words], environment=environment)

    def serves(self, command, said):
        """Whether an installed command has all that it is to have, where the checkout is gone."""
        self.assertEqual(
            self.run_words([command, "show", "--help"])[1].split("\n")[0], "boardnet show PATH.. [OPTION ..]"
        )
        # The program is a stand-in that answers nothing that could be judged.
        status, out, _ = self.run_words(
            [command, "show", os.path.join(common.EXAMPLES, "two_layer")], environment={"BOARDNET": ""}
        )
        self.assertEqual((status, out.startswith("NOT JUDGED ")), (12, True))
        self.assertEqual(self.run_words([command, "trial", "1", "2"])[:2], (0, said))
        page = self.run_words([command, "--help"])[1]
        self.assertIn("boardnet check MANIFEST", page)
        self.assertNotIn("install", page)
        shutil.copytree(os.path.join(common.EXAMPLES, "two_layer"), self.path("board"))
        os.remove(self.path("board", "m.json"))
        self.assertEqual(self.run_words([command, "manifest", "board"])[0], 0)
        with open(os.path.join(common.EXAMPLES, "two_layer", "m.json")) as file:
            self.assertEqual(self.read("board/m.json"), file.read())


def tree(top):
    """Each file below a folder, with its mode and bytes."""
    found = {}
    for at, _, names in os.walk(top):
        for name in names:
            path = os.path.join(at, name)
            with open(path, "rb") as file:
                found[os.path.relpath(path, top)] = os.stat(path).st_mode & 0o777, file.read()
    return found


class Install(Installed):
    def test_installed_without_the_checkout(self):
        prefix = self.path("it's here")
        status, out, _ = self.launch("install", prefix)
        self.assertEqual(status, 0)
        for path in out.splitlines():
            self.assertTrue(os.path.isfile(path), path)
        for inside in (
            "bin/boardnet",
            "share/man/man1/boardnet.1",
            "share/bash-completion/completions/boardnet",
            "share/zsh/site-functions/_boardnet",
        ):
            self.assertIn(os.path.join(prefix, inside), out)
        for name in ("README.md", "docs/FORMATS.md", "docs/using/answers.md", "examples/two_layer/m.json"):
            self.assertTrue(os.path.isfile(os.path.join(prefix, "share", "doc", "boardnet", name)), name)
        for name in ("page.html", "page.css", "data.js", "draw.js", "chosen.js", "act.js"):
            self.assertTrue(
                os.path.isfile(os.path.join(prefix, "lib", "boardnet", "boardnet_show", "output", "page_assets", name)),
                name,
            )
        shutil.rmtree(self.top)
        # It can be moved, and a link leads to it.
        os.rename(prefix, self.path("moved"))
        os.symlink(self.path("moved", "bin", "boardnet"), self.path("link"))
        self.serves(self.path("link"), "ran trial 1 2\n")
        self.assertEqual(self.run_words([self.path("link"), "--version"])[1].split()[0], "boardnet")

    def test_staged(self):
        status, out, _ = self.launch("install", "/usr", DESTDIR=self.path("stage"))
        self.assertEqual((status, out.split()[0]), (0, "/usr/lib/boardnet/boardnet"))
        self.assertTrue(os.path.isfile(self.path("stage", "usr", "bin", "boardnet")))

    def test_not_installed(self):
        self.write("top/boardnet", "#!/bin/sh\nexit 3\n", 0o755)
        told = self.run_words(
            [sys.executable, self.path("top", "tools", "launch", "install.py"), self.top, self.path("here")]
        )
        self.assertEqual(
            told,
            (
                1,
                "",
                f"boardnet: not installed: Command '['{self.path('top', 'boardnet')}', '--version']' returned non-zero exit status 3.\n",
            ),
        )


class Written(common.Case):
    def test_an_interrupt_leaves_no_file(self):
        with mock.patch("os.replace", side_effect=KeyboardInterrupt), self.assertRaises(KeyboardInterrupt):
            kept.write_whole(self.path("file"), b"text", 0o644)
        self.assertEqual(os.listdir(self.scratch), [])


class Compiled(Installed):
    """Where Python keeps what it makes of the scripts' modules."""

    def made_by(self, cache):
        """What a run of the checkout leaves in a cache folder."""
        words = ["env", "-u", "PYTHONDONTWRITEBYTECODE", os.path.join(self.top, "tools", "manifest"), "--help"]
        self.assertEqual(self.run_words(words, environment={"XDG_CACHE_HOME": cache})[0], 0)
        self.assertFalse([name for name in tree(self.top) if name.endswith(".pyc")])
        return [name for name in tree(cache) if name.endswith(".pyc")]

    def test_of_a_checkout(self):
        cache = self.path("cache")
        self.assertTrue(any("/intake/mends/table." in name for name in self.made_by(cache)))
        self.assertEqual(os.stat(os.path.join(cache, "boardnet-python")).st_mode & 0o777, 0o700)
        for mode in (0o770, 0o707):
            os.makedirs(self.path(f"open{mode}", "boardnet-python"))
            os.chmod(self.path(f"open{mode}", "boardnet-python"), mode)
            self.assertEqual(self.made_by(self.path(f"open{mode}")), [])

    def test_of_what_is_installed(self):
        self.assertEqual(self.launch("install", self.path("here"))[0], 0)
        files = tree(self.path("here", "lib", "boardnet"))
        modules = [name for name in files if name.endswith(".py")]
        self.assertTrue(modules)
        for name in modules:
            data = files[compiled.beside(name)][1]
            # It holds for the bytes of its source, whatever the times of both files are.
            self.assertEqual(
                (data[:4], data[4:8], data[8:16]),
                (importlib.util.MAGIC_NUMBER, b"\3\0\0\0", importlib.util.source_hash(files[name][1])),
            )


class SelfTest(Installed):
    """What `selftest` says of a program that answers as it must, and of others."""

    def setUp(self):
        super().setUp()
        self.program = os.path.join(self.top, "crates", "boardnet", "out", "boardnet")
        self.count_as_new()

    def count_as_new(self):
        os.chmod(self.program, 0o755)
        os.utime(self.program, (4_000_000_000, 4_000_000_000))

    def test_right(self):
        self.write("top/crates/boardnet/out/boardnet", RIGHT)
        self.count_as_new()
        for command in ([os.path.join(self.top, "boardnet")], [self.installed()]):
            status, out, notes = self.run_words([*command, "selftest"])
            self.assertEqual((status, notes, out.count(": right"), out.count(", right (")), (0, "", 1, 4), out)

    def installed(self):
        self.assertEqual(self.launch("install", self.path("here"))[0], 0)
        return self.path("here", "bin", "boardnet")

    def test_wrong(self):
        rows = [
            # what is spoilt of a program that answers as it must, and what is said of it
            ("cat report.txt", "echo other", "its report: WRONG"),
            ("cat report.txt; exit 0", "exit 1", "check of a board that agrees: status 1, WRONG, 0 is wanted"),
            (
                '"audit two_layer report.txt") exit 0',
                '"audit two_layer report.txt") exit 3',
                "audit of that report: status 3, WRONG, 0 is wanted",
            ),
            (
                'shorts ") exit 1',
                'shorts ") exit 0',
                "check of a board with opens and shorts: status 0, WRONG, 1 is wanted",
            ),
            (
                '../two_layer/report.txt") exit 1',
                '../two_layer/report.txt") exit 0',
                "audit of a report of another board: status 0, WRONG, 1 is wanted",
            ),
        ]
        for right, wrong, said in rows:
            with self.subTest(said=said):
                self.write("top/crates/boardnet/out/boardnet", RIGHT.replace(right, wrong))
                self.count_as_new()
                status, out, notes = self.launch("selftest")
                self.assertEqual(
                    (status, "all as it must be" in out, "selftest: something is wrong" in notes), (70, False, True)
                )
                self.assertIn(said, out)


# A program that answers the four questions of `selftest` as it must.
RIGHT = """#!/bin/sh
case "$1 ${PWD##*/} ${3-}" in
  "check two_layer ") cat report.txt; exit 0 ;;
  "audit two_layer report.txt") exit 0 ;;
  "check opens_and_shorts ") exit 1 ;;
  "audit opens_and_shorts ../two_layer/report.txt") exit 1 ;;
esac
exit 9
"""


class Package(Installed):
    """The stand-in is echo, a program of ELF that wants the C library alone."""

    MAINTAINER = "Ann Example <ann@example.org>"

    def setUp(self):
        super().setUp()
        if not all(shutil.which(it) for it in ("dpkg-deb", "dpkg-shlibdeps", "git", "echo")):
            self.skipTest("it wants dpkg-deb, dpkg-shlibdeps and git")
        shutil.copy(shutil.which("echo"), self.path("top", "crates", "boardnet", "out", "boardnet"))
        self.git("init", "-q")
        self.commit()
        self.note()

    def git(self, *words):
        return self.run_words(["git", "-C", self.top, "-c", "user.name=a", "-c", "user.email=a@b", *words])[1].strip()

    def commit(self):
        self.git("add", "-A")
        self.git("commit", "-q", "-m", "made")

    def note(self):
        kept.note(self.top, kept.Made("a kit logic 1", kept.sum_of_sources(self.top)))

    def packages(self):
        """Makes both, and gives their paths."""
        status, out, notes = self.launch("package", self.path("made"), "--maintainer", self.MAINTAINER)
        commit = self.git("rev-parse", "--short=12", "HEAD")
        archive, package = self.path("made", f"boardnet-0.9+{commit}.tar.xz"), self.path(
            "made", f"boardnet_0.9+{commit}_amd64.deb"
        )
        self.assertEqual((status, out, notes), (0, f"{archive}\n{package}\n", ""))
        return archive, package

    def test_without_a_maintainer(self):
        status, out, notes = self.launch("package", self.path("made"))
        self.assertEqual((status, len(out.splitlines()), notes.split(",")[0]), (0, 1, "boardnet: no Debian package"))
        self.assertEqual([os.path.splitext(name)[1] for name in os.listdir(self.path("made"))], [".xz"])

    def test_holds_what_is_installed(self):
        archive, package = self.packages()
        commit = self.git("rev-parse", "--short=12", "HEAD")
        self.launch("install", self.path("installed"))
        os.makedirs(self.path("unpacked"))
        for words in (
            ["tar", "-C", "unpacked", "--strip-components=1", "-xf", archive],
            ["dpkg-deb", "-x", package, "root"],
        ):
            self.assertEqual(self.run_words(words)[0], 0)
        installed = tree(self.path("installed"))
        self.assertEqual(tree(self.path("unpacked")), installed)
        told = self.run_words(["dpkg-deb", "-f", package, "Depends", "Recommends", "Maintainer"])[1]
        self.assertRegex(
            told,
            r"Depends: libc6 \(>= 2\.\d+\)\nRecommends: python3 \(>= 3.8\)\nMaintainer: Ann Example <ann@example.org>\n",
        )
        self.is_the_debian_tree(tree(self.path("root", "usr")), installed)
        # The guide says how the sum is made.
        with open(os.path.join(common.TOP, "docs", "using", "commands.md"), encoding="utf-8") as file:
            sums = next(line.strip() for line in file if line.startswith("    find crates.txt"))
        sums = self.run_words(["sh", "-c", sums], self.top)[1]
        shutil.rmtree(self.top)
        for command in (self.path("root", "usr", "bin", "boardnet"), self.path("unpacked", "bin", "boardnet")):
            lines = self.run_words([command, "--version"])[1].splitlines()
            self.assertEqual(
                [lines[0], lines[1], lines[3]],
                ["boardnet 0.9", f"commit {commit}", f"sources {sums.split()[0]}, proved with a kit logic 1"],
            )
        self.serves(command, "trial 1 2\n")

    def is_the_debian_tree(self, files, installed):
        """It has all that is installed but what Python compiled, with a changelog, and manual and changelog packed."""
        manual, changelog = "share/man/man1/boardnet.1", "share/doc/boardnet/changelog.gz"
        wanted = {name: it for name, it in installed.items() if "__pycache__" not in name}
        packed = {name: gzip.decompress(files.pop(name)[1]) for name in (manual + ".gz", changelog)}
        self.assertEqual(packed[manual + ".gz"], wanted.pop(manual)[1])
        self.assertIn(f" -- {self.MAINTAINER}  ".encode(), packed[changelog])
        self.assertEqual(files, wanted)

    def test_policy(self):
        """Debian's own checker has nothing against it but the licence, which its owner has to choose."""
        if not shutil.which("lintian"):
            self.skipTest("there is no lintian")
        _, package = self.packages()
        _, out, _ = self.run_words(["lintian", "--allow-root", "--fail-on", "none", package])
        errors = [line for line in out.splitlines() if line.startswith("E: ") and "no-copyright-file" not in line]
        self.assertEqual(errors, [])

    def test_no_maintainer(self):
        for text in ("", "ann@example.org", "Ann <>", "Ann <a>", "<a@b>", "Ann <a@b>\nX: y", "Ann <a@b> more"):
            with self.subTest(text=text), self.assertRaises(debian.Refused):
                debian.maintainer_of(text)
        self.assertEqual(self.launch("package", self.path("made"), "--maintainer", "Ann")[0], 1)
        self.assertFalse(os.path.exists(self.path("made")))

    def test_refused(self):
        source = "top/crates/boardnet/src/main.rt"
        program = self.path("top", "crates", "boardnet", "out", "boardnet")

        def other_sources():
            self.write(source, "// another\n")
            self.commit()

        rows = [
            # the reason begins so, what is done to a checkout that has a package
            (
                "the checkout is changed, so its commit does not name its sources: M crates/boardnet/src/main.rt",
                lambda: self.write(source, "// changed\n"),
            ),
            (
                "the checkout is changed, so its commit does not name its sources: ?? tools/more",
                lambda: self.write("top/tools/more", ""),
            ),
            (
                "the checkout is changed, so its commit does not name its sources: ?? HANDLES",
                lambda: self.write("top/HANDLES", ""),
            ),
            ("the program was proved of other sources", other_sources),
            ("nothing says that this program was proved", lambda: shutil.copy(shutil.which("true"), program)),
            ("nothing says that this program was proved", lambda: os.remove(program + ".made")),
            ("the program is not built", lambda: os.remove(program)),
            ("this is no checkout of git with a commit", lambda: shutil.rmtree(self.path("top", ".git"))),
        ]
        for reason, spoil in rows:
            with self.subTest(reason=reason):
                spoil()
                status, out, notes = self.launch("package", self.path("made"), GIT_CEILING_DIRECTORIES=self.scratch)
                self.assertEqual((status, out), (1, ""))
                self.assertTrue(notes.startswith(f"boardnet: no package: {reason}"), notes)
                self.assertFalse(os.path.exists(self.path("made")))
                self.assertEqual(", changed" in self.launch("--version")[1], "is changed" in reason)
            if os.path.isdir(self.path("top", ".git")):
                self.git("checkout", "-q", "--", ".")
                self.git("clean", "-fdq")
                shutil.copy(shutil.which("echo"), program)
                self.note()

    def test_half_of_it_is_not_left(self):
        self.write("bin/dpkg-deb", '#!/bin/sh\nfor path; do :; done\necho half >"$path"\nexit 2\n', 0o755)
        environment = {"PATH": self.path("bin") + os.pathsep + os.environ["PATH"]}
        status, out, notes = self.launch("package", self.path("made"), "--maintainer", self.MAINTAINER, **environment)
        self.assertEqual((status, out, notes.count("boardnet: no package: ")), (1, "", 1))
        self.assertEqual(os.listdir(self.path("made")), [])

    def test_a_program_of_unknown_libraries(self):
        for program in (b"\x7fELF" + bytes(60) + b"\0libodd.so.3\0", b"#!/bin/sh\n"):
            with self.assertRaises(debian.Refused):
                debian.depends(program)
        with self.assertRaises(debian.Refused):
            debian.architecture(b"#!/bin/sh\n" + bytes(60))


class Texts(common.Case):
    def test_man_page_has_the_words_of_help(self):
        text = texts.man(texts.release())
        page = text.replace("\\-", "-").replace("\\e", "\\").replace("\\&", "").split("\n")
        for line in self.run_words([os.path.join(common.TOP, "boardnet"), "audit", "--help"])[1].splitlines()[4:]:
            self.assertIn(line, [*page, "Status", ""])
        self.assertTrue(text.startswith(".TH BOARDNET 1"))
        for part in (
            ".SH NAME",
            ".SH SYNOPSIS",
            ".SH COMMANDS",
            ".SS boardnet check MANIFEST",
            ".SH FILES",
            ".SH EXIT STATUS",
        ):
            self.assertIn(part, text)

    def test_completions_read(self):
        for shell, text in (("bash", texts.bash()), ("zsh", texts.zsh())):
            for command in ("check", "audit", "trial", "manifest"):
                self.assertIn(command, text)
            self.assertNotIn("install", text)
            self.assertNotIn("@", text)
            if shutil.which(shell):
                path = self.write(shell, text)
                self.assertEqual(self.run_words([shell, "-n", path]), (0, "", ""))

    def test_bash_completes(self):
        if not shutil.which("bash"):
            self.skipTest("there is no bash")
        script = (
            texts.bash()
            + """
        compopt() { :; }
        COMP_WORDS=(boardnet "$1") COMP_CWORD=1; _boardnet; echo "${COMPREPLY[@]}"
        COMP_WORDS=(boardnet manifest --) COMP_CWORD=2; _boardnet; echo "${COMPREPLY[@]}"
        COMP_WORDS=(boardnet check fil) COMP_CWORD=2; _boardnet; echo "${COMPREPLY[@]}"
        COMP_WORDS=(boardnet between file.json fil) COMP_CWORD=3; _boardnet; echo "${COMPREPLY[@]}"
        COMP_WORDS=(boardnet check a) COMP_CWORD=2; _boardnet; printf '<%s>' "${COMPREPLY[@]}"
        """
        )
        self.write("file.json", "")
        self.write("a b.json", "")
        out = self.run_words(["bash", "-c", script, "bash", "a"])[1].splitlines()
        self.assertEqual(
            out, ["audit", "--help --netlist --yes --no-drills --mend", "file.json", "file.json", "<a b.json>"]
        )
