"""Files that need no bounds are found without their large contours; what a whole walk would bound is never among
them."""
import unittest
from unittest import mock

from boardnet_show.bounds.files import bounded_file, within_profile

HEAD = "%FSLAX46Y46*%\n%MOMM*%\n%ADD10C,0.5*%\n%LPD*%\nG01*\n"
RING = ["X0Y0D02*", *(f"X{k}000000Y{k % 7}000000D01*" for k in range(1, 1200)), "X0Y9000000D01*", "X0Y0D01*"]


def region(words):
    return "\n".join(["G36*", *words, "G37*", ""])


class Within(unittest.TestCase):
    def said(self, body, head=HEAD, most=100_000):
        """Whether a file is within the profile; where it is, the whole walk replaces nothing."""
        text = head + body + "M02*\n"
        with mock.patch.object(within_profile, "MOST_EDGES", most):
            found = within_profile.is_within(text)
        if found:
            copper = bounded_file.of_text(text)
            self.assertFalse(copper.replaced or copper.lost or copper.rows or copper.unlike)
        return found

    def test_planes(self):
        flash = "D10*\nX0Y0D03*\n"
        emptied = [word if k % 5 else "*" for k, word in enumerate(RING[:-2]) if k] + RING[-2:]
        # That a contour is open is for `check` to say.
        for body in (
            region(RING),
            flash + region(RING),
            region(RING) + flash,
            region(RING) + region(RING),
            region(RING[:1] + emptied),
            region(RING[:-1]),
        ):
            self.assertTrue(self.said(body), body[:80])

    def test_emptied(self):
        """A contour of which most words are empty is left out with these, wherever they stand."""
        for at in (1, 3, 600, 1199):
            words = [*RING[:at], *["*"] * 5_000, *RING[at:]]
            short = within_profile.shortened(HEAD + region(words))
            self.assertLess(len(short), 400)
            self.assertTrue(self.said(region(words)))

    def test_others(self):
        arc = "G75*\nD10*\nX0Y0D02*\nG03X1000000Y1000000I0J1000000D01*\nG01*\n"
        rows = [
            arc + region(RING),
            region(RING) + arc,
            "G75*\nG03*\n" + region(RING),
            "%LPC*%\n" + region(RING),
            region([*RING[:600], "G03X1Y1I1J1D01*", *RING[600:]]),
            region([*RING[:600], "X5Y5D02*", *RING[600:]]),
            "G04 a\n" + region(RING),
            "%ADD11P,1.0X5*%\nD11*\nX0Y0D03*\n" + region(RING),
            region(RING[:90]),
        ]
        for body in rows:
            self.assertFalse(self.said(body), body[:80])
        self.assertFalse(self.said(region(RING), most=1000))

    def test_draws_behind_a_comment(self):
        """A comment's end that reads like a region's beginning begins none."""
        words = "G04 G36*\nD10*\n" + "\n".join(RING) + "\n"
        self.assertFalse(self.said(words + "G04 G37*\n"))
