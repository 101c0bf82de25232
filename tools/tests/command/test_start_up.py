"""What stands in place of the library's own, since that takes longer to load than a small board: it answers the same."""
import html
import json
import os
from decimal import Decimal
from fractions import Fraction
from unittest import mock
from xml.sax import saxutils

from boardnet_show.base import scratch, wording
from boardnet_show.command import options
from boardnet_show.formats import indented_json
from boardnet_show.formats.drills import drill_places
from boardnet_show.formats.gerber_lexer import in_u
from boardnet_show.output import junit, markup
from tests.fixtures import common

TEXTS = ("", "plain", "a<b>&amp;", "it's", 'say "so"', """both ' and " """, "line\nfeed")
READ = (
    [],
    ["--help"],
    ["a"],
    ["", "b", "-q"],
    ["-q", "a", "--all"],
    ["--page", "-", "a"],
    ["a", "--tie", "A=B", "--tie", "C=D"],
    ["--json", "x", "--json", "y", "a"],
    ["a", "--no-drills", "--yes", "--labels", "--gaps", "0.1"],
)
LEFT = (
    ["a", "-q", "b"],
    ["--js", "-", "a"],
    ["--json=x", "a"],
    ["a", "--json"],
    ["--json", "-q", "a"],
    ["--", "a"],
    ["-"],
    ["-x y"],
    ["--tie", "-a", "b"],
)


class Light(common.Case):
    def test_words_as_the_parser_reads_them(self):
        for given in READ:
            self.assertEqual(vars(options.plain(given)), vars(options.parser().parse_args(given)), given)
        for given in LEFT:
            self.assertIsNone(options.plain(given), given)

    def test_marks(self):
        for text in TEXTS:
            self.assertEqual(
                (markup.escaped(text), markup.in_html(text), junit.quoted(text)),
                (saxutils.escape(text), html.escape(text), saxutils.quoteattr(text)),
            )

    def test_unprintable(self):
        """C0, C1, DEL, marks of direction, ends of lines, halves of characters and bytes that are no UTF-8; letters and signs stay."""
        for text, told in (
            ("a\x1b[2Jb", r"a\u001b[2Jb"),
            ("\r\n\t\x7f\x9b", r"\u000d\u000a\u0009\u007f\u009b"),
            ("\u202ea\u2066\u200f", r"\u202ea\u2066\u200f"),
            ("\u2028\u2029\x85", r"\u2028\u2029\u0085"),
            ("\ud800a\udc9b", r"\ud800a\x9b"),
            ("\U000e0001", r"\U000e0001"),
            ("/\xe4\u03a9\u4e2d \\ 1", "/\xe4\u03a9\u4e2d \\ 1"),
        ):
            self.assertEqual(
                (
                    wording.printable(text),
                    markup.escaped(text.replace("\n", "")),
                    json.loads(indented_json.indented({text: [text]})),
                ),
                (
                    told,
                    wording.printable(text.replace("\n", "")),
                    {indented_json.whole(text): [indented_json.whole(text)]},
                ),
            )
            indented_json.whole(text).encode()

    def test_ends(self):
        for text, told in (
            ("a b", "a b"),
            (" a", r"\u0020a"),
            ("a  ", r"a\u0020\u0020"),
            ("  ", r"\u0020\u0020"),
            ("", ""),
        ):
            self.assertEqual(wording.with_ends(text), told)

    def test_lengths(self):
        for text in (
            "0",
            "1",
            "-1",
            "+1.5",
            ".5",
            "-.25",
            "007.500",
            "0.0000001",
            "0.00000005",
            "-0.00000015",
            "0.00000025",
            "1.",
            "123456789.123456789",
        ):
            exact = Fraction(Decimal(text)) * 10**7
            self.assertEqual(in_u(text.encode(), 10**7), exact if exact.denominator == 1 else None, text)
            self.assertEqual(drill_places.length(text.encode(), 10**7), round(exact), text)
        self.assertEqual((in_u(b"0" * 5000 + b"2." + b"0" * 5000, 10), in_u(b"1" * 5000, 10)), (20, None))

    def test_scratch(self):
        os.makedirs(self.path("kept", "inner"))
        with mock.patch.dict(os.environ, TMPDIR=self.path("nowhere"), TEMP=self.path("kept")):
            with scratch.Scratch() as folder:
                self.assertEqual((os.path.dirname(folder), os.stat(folder).st_mode & 0o777), (self.path("kept"), 0o700))
                os.makedirs(os.path.join(folder, "deep", "er"))
                os.symlink(self.path("kept", "inner"), os.path.join(folder, "deep", "link"))
        self.assertEqual(os.listdir(self.path("kept")), ["inner"])
