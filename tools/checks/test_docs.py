"""The documents: how long they and their sentences are, where their links lead, and that each command line in them is run."""
import glob
import os
import re
import shlex
import shutil
import subprocess
import unittest

from tests.fixtures import common

ALL = (
    "README.md",
    "CONTRIBUTING.md",
    "CHANGELOG.md",
    "docs/*.md",
    "docs/using/*.md",
    "crates/*/README.md",
    "tools/README.md",
)
# Pages for readers who do not prove, of which no sentence is over so many words.
PLAIN = ("README.md", "CONTRIBUTING.md", "tools/README.md", "docs/USING.md", "docs/using/*.md")
MOST_WORDS, MOST_BYTES, MOST_BYTES_OF_A_PAGE = 30, 215_000, 12_000
# Command lines that are run elsewhere, or not here, by their first words.
ELSEWHERE = {
    "bash .ci/run": "the gate itself",
    "boardnet package": "test_installed",
    "./boardnet prove": "test_build",
    "boardnet show $(OUT)": "test_ci",
    "find crates.txt": "test_installed",
    "kicad-cli": "another tool, as its documentation has it",
}
COMMAND = re.compile(r"(?:boardnet(?!:)|\./boardnet|tools/\w+|benches/\w+|bash|find|rt|kicad-cli)(?: |$)")
INLINE = re.compile(r"`([^`\n]+)`")
# What a page names as a file or folder of ours; the ending of a definition or a proof may be left out.
FILE = re.compile(r"[\w./]+\.(?:rt|py|antt)|(?:src|specs|proofs|benches|tools|docs)/[\w/]+")
# Options of other tools, which our pages name.
OTHER_OPTIONS = {"--excellon-separate-th"}


def pages(patterns):
    """The names of pages, from the top."""
    found = [path for it in patterns for path in sorted(glob.glob(os.path.join(common.TOP, it)))]
    return [os.path.relpath(path, common.TOP) for path in found]


def all_files():
    """The paths of all files but what was built."""
    for folder, folders, names in os.walk(common.TOP):
        folders[:] = [it for it in folders if it not in (".git", "out")]
        yield from (os.path.join(folder, name) for name in names)


def read(name):
    with open(os.path.join(common.TOP, name), encoding="utf-8") as file:
        return file.read()


def parted(text):
    """The lines of text and those of code: what a blank line and four blanks, or a fence, stand before."""
    prose, code, is_code, is_fenced, was_blank = [], [], False, False, True
    for line in text.splitlines():
        if line.startswith("```"):
            is_fenced = not is_fenced
            continue
        is_code = is_fenced or line.startswith("    ") and (was_blank or is_code)
        (code if is_code else prose).append(line)
        was_blank = not line.strip()
    return prose, code


def units(text):
    """Paragraphs, items of lists and cells of tables; of a cell the parts between semicolons and colons."""
    unit = []
    for line in [*parted(text)[0], ""]:
        begins = re.match(r"\s*(?:[-*#]+|\d+\.) ", line)
        if unit and (begins or not line.strip() or line.startswith(("|", "<!--", "!["))):
            yield " ".join(unit)
            unit = []
        if line.startswith("|"):
            yield from re.split(r" \| |[;:] ", re.sub(INLINE, "code", line))
        elif line.strip() and not line.startswith(("<!--", "![")):
            unit.append(line.strip())


def sentences(text):
    """Sentences, in which names in code that stand in a row are one word."""
    for unit in units(text):
        plain = re.sub(r"\[([^\]]*)\]\([^)]*\)", r"\1", re.sub(INLINE, "code", unit))
        plain = re.sub(r"\bcode(?:,? (?:and |or )?code\b)+", "codes", plain)
        yield from re.split(r"(?<=[.?!])[*_)]*(?: |$)|(?<=[.?!][*_)])(?: |$)", plain)


def words(sentence):
    return [it for it in sentence.split() if re.search(r"\w", it)]


def command_lines(text):
    return [line.strip() for line in parted(text)[1] if COMMAND.match(line.strip())]


def help_text():
    return read("tools/help.txt")


class Docs(common.Case):
    def test_sentences(self):
        for name in pages(PLAIN):
            for sentence in sentences(read(name)):
                self.assertLessEqual(len(words(sentence)), MOST_WORDS, f"{name}: {sentence}")

    def test_sizes(self):
        sizes = {name: len(read(name).encode()) for name in pages(ALL)}
        self.assertLessEqual(sum(sizes.values()), MOST_BYTES)
        for name in pages(["docs/using/*.md"]):
            self.assertLess(sizes[name], MOST_BYTES_OF_A_PAGE, name)

    def test_links(self):
        for name in pages(ALL):
            for target in re.findall(r"\]\(([^)#\s]+)(?:#[^)]*)?\)", read(name)):
                if "://" not in target:
                    self.assertTrue(
                        os.path.exists(os.path.join(common.TOP, os.path.dirname(name), target)), f"{name}: {target}"
                    )

    def test_files(self):
        paths = [f"{path}/" for path in all_files()]
        for name in pages(ALL):
            for code in INLINE.findall(read(name)):
                if FILE.fullmatch(code) and "NAME" not in code:
                    self.assertTrue(
                        any(f"/{code}/" in path or f"/{code}." in path for path in paths), f"{name}: {code}"
                    )

    def test_release(self):
        release = read("tools/release").strip()
        self.assertEqual(re.search(r"(?m)^## (\S+)", read("CHANGELOG.md"))[1], release)
        if shutil.which("git"):
            tags = self.run_words(["git", "tag", "--points-at", "HEAD"], common.TOP)[1].split()
            for tag in tags:
                self.assertEqual(tag, f"v{release}")

    def test_commands_in_words(self):
        sections = {it.split()[0]: it for it in re.split(r"(?m)^= ", help_text()) if it}
        known = set(re.findall(r"--[\w-]+", help_text())) | OTHER_OPTIONS | {"--help", "--version"}
        for name in pages(["README.md", "docs/USING.md", "docs/using/*.md"]):
            for code in INLINE.findall("\n".join(parted(read(name))[0])):
                said = re.match(r"(?:\./)?boardnet (\w+)", code)
                if said and said[1] != "COMMAND":
                    self.assertTrue(said[1] in sections, f"{name}: {code}")
                if said and said[1] in sections or code.startswith("--"):
                    allowed = sections[said[1]] + "--help" if said else " ".join(known)
                    for option in re.findall(r"(?<!\S)--[\w-]+", code):
                        self.assertTrue(option in allowed or option in OTHER_OPTIONS, f"{name}: {code}")


class Lines(common.Case):
    """Each command line of a page runs as it stands, in the order of the page, in a folder of an example's files."""

    def put_command(self, program):
        """A `boardnet` as an installed one is: the front over the program that is there."""
        front = f"home={shlex.quote(common.TOOLS)} program={shlex.quote(program)}\nversion() {{ :; }}\nready() {{ :; }}\nexport BOARDNET={shlex.quote(program)}\n"
        text = f'#!/bin/sh\n{front}. "$home/launch/front.sh"\nfront "$@"\n'
        return self.write("bin/boardnet", text, 0o755)

    def test_known(self):
        for name in pages(ALL):
            for line in command_lines(read(name)):
                with self.subTest(page=name, line=line):
                    is_elsewhere = any(line.startswith(head) for head in ELSEWHERE)
                    self.assertTrue(is_elsewhere or re.match(r"(\./)?boardnet ", line))

    def test_run(self):
        command = self.put_command(common.program())
        path = os.pathsep.join([os.path.dirname(command), os.environ["PATH"]])
        for number, name in enumerate(pages(["README.md", "docs/*.md", "docs/using/*.md"])):
            here = self.example("two_layer", f"here{number}")
            self.example("two_layer", f"here{number}/FOLDER")
            shutil.copytree(common.EXAMPLES, os.path.join(here, "examples"))
            shutil.copy(command, os.path.join(here, "boardnet"))
            for line in command_lines(read(name)):
                if any(line.startswith(head) for head in ELSEWHERE):
                    continue
                with self.subTest(page=name, line=line):
                    status, _, notes = self.run_words(["sh", "-c", line], here, environment={"PATH": path})
                    self.assertEqual(status, 0, notes)

    def test_examples(self):
        """Each row of the examples' page ends with its status: its lines in a copy of its folder, or `show` on that."""
        path = os.pathsep.join([os.path.dirname(self.put_command(common.program())), os.environ["PATH"]])
        rows = [row.split(" | ") for row in re.findall(r"(?m)^\| (.* \| \d.*) \|$", read("examples/README.md"))]
        for number, (*_, folder, words, end) in enumerate(rows):
            lines = words.strip("`") if words.startswith("`") else ":"
            here = self.example(folder.strip("`"), f"example{number}")
            shown = lines if "boardnet" in lines else f"{lines}; boardnet show ."
            with self.subTest(folder=folder, lines=lines):
                status, _, notes = self.run_words(["sh", "-c", shown], here, environment={"PATH": path})
                self.assertEqual(str(status), re.match(r"\d+", end)[0], notes)
        self.assertEqual({folder for *_, folder, _, _ in rows}, {f"`{name}`" for name in common.examples()})

    def test_toolchain_has_its_commands(self):
        if not shutil.which("rt"):
            raise unittest.SkipTest("there is no rt")
        said = subprocess.run(
            ["rt", "--help"], stdout=subprocess.PIPE, stderr=subprocess.STDOUT, check=False
        ).stdout.decode()
        for name in pages(["CONTRIBUTING.md"]):
            for line in re.findall(r"\brt ([a-z-]+)", read(name)):
                self.assertRegex(said, rf"\b{line}\b")
