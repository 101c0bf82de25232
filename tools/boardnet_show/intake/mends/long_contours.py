"""Contours of a copper file that have more edges than `check` takes, cut into several."""
import re
from itertools import accumulate
from typing import Iterator, List, NamedTuple, Optional, Sequence, Tuple

from boardnet_show.formats import gerber_attributes
from boardnet_show.formats.gerber_lexer import BLANKS, FILE_ENDS, Broken, Word, holding, is_at_word, run_of, tokens
from boardnet_show.formats.gerber_machine import MODES, MOST_EDGES, MOVE, STRAIGHT

from .edits import Edits
from .table import CONTOUR

# Numbers of words, the places they lead to, and which of these are moves.
Operations = Tuple[Sequence[int], List[Tuple[int, int]], List[int]]

OPERATED = re.compile(rb"(?:G0?[0-3])?[XYIJ]|(?:G0?[0-3])?D0?[0-3]\Z|G0?[023]\Z")
OF_OPERATIONS = b"GXYD+-0123456789"
BETWEEN = b"%\t\n\r "
# What takes copper away, repeats it or bends an edge: then a part at the file's end could be another than in its
# place. Each sign that the words have, with their form.
ORDERED = (
    (b"LPC", rb"LPC"),
    (b"SR", rb"SR."),
    (b"AB", rb"AB"),
    (b"G02", rb"G02"),
    (b"G2", rb"G2(?![0-9])"),
    (b"G03", rb"G03"),
    (b"G3", rb"G3(?![0-9])"),
)


class Contour(NamedTuple):
    """A contour's corners, and the numbers of the words by which they are reached, the last one by that which closes
    it."""

    corners: list
    words: list

    def is_closed(self) -> bool:
        return self.corners[0] == self.corners[-1]


class Region:
    """A region's words with their places."""

    def __init__(self, data: bytes, start: int, end: int) -> None:
        self.start, self.end, self.body = start, end, data[start:end]
        self.texts, self.stops = self.body.split(b"*"), None

    def contours(self) -> Iterator[Contour]:
        """The long contours, where the region begins at a whole place and has straight edges alone."""
        words, spots, moves = self.plain() or self.operations() or ((), (), ())
        for first, past in zip(moves, [*moves[1:], len(spots)]):
            if past - first - 1 > MOST_EDGES:
                yield Contour(spots[first:past], words[first + 1 : past])

    def plain(self) -> Optional[Operations]:
        """The numbers of the operations' words, their places, and which of them move; nothing where a word does not
        say all."""
        run = run_of(self.body, 0, len(self.body))
        moves = [k for k, code in enumerate(run.codes) if code == MOVE] if run else []
        return (range(len(run.codes)), [*zip(run.xs, run.ys)], moves) if moves[:1] == [0] else None

    def operations(self) -> Optional[Operations]:
        """The same, where words leave out what they share with the one before; nothing where one is no straight
        edge."""
        words, spots, moves, x, y = [], [], [], None, None
        try:
            for number, word in enumerate(tokens(self.body)):
                mode, new_x, new_y, centre, code = word.parts or (None, None, None, b"", None)
                if is_bent(word) or centre or code == b"3" or MODES.get(mode, STRAIGHT) is not STRAIGHT:
                    return None
                if not word.parts:
                    continue
                if not spots and not (code == b"2" and new_x and new_y):
                    return None
                x, y = int(new_x) if new_x else x, int(new_y) if new_y else y
                if code == b"2":
                    moves.append(len(spots))
                spots.append((x, y))
                words.append(number)
        except Broken:
            return None
        return words, spots, moves

    def word_place(self, number: int) -> Tuple[int, int]:
        """A word's first byte and its star, in the file."""
        if self.stops is None:
            self.stops = [*accumulate(len(text) + 1 for text in self.texts)]
        star = self.start + self.stops[number] - 1
        return star - len(self.texts[number].lstrip(BETWEEN)), star


def is_bent(word: Word) -> bool:
    """Whether a word without coordinates or code is an arc's mode, or like an operation and none that is known."""
    return not word.parts and not word.inside and bool(OPERATED.match(word.text))


def regions(data: bytes) -> Iterator[Region]:
    """The regions of more words than a contour may have edges: from behind `G36` to before `G37`."""
    signs = sorted(it for sign in (b"G36", b"G37") for it in holding(data, sign) if not it.inside and it.text == sign)
    for one, other in zip(signs, signs[1:]):
        start, end = one.end + 1, other.start
        is_long = end - start > MOST_EDGES and data.count(b"*", start, end) > MOST_EDGES
        if is_long and (one.text, other.text) == (b"G36", b"G37"):
            yield Region(data, start, end)


def in_place(contour, part):
    """The words of corners that go leave empty ones, or say a place on an edge at which a chord ends; the next one
    says both coordinates. Nothing where there are fewer words than such places."""
    known, fresh, written = 0, [], {}
    for spot, number in [*part[1:], (part[0][0], len(contour.words))]:
        if number is None:
            fresh.append(spot)
        else:
            going = contour.words[known : number - 1]
            if len(fresh) > len(going):
                return None
            if going:
                written.update(zip([*going[: len(fresh)], contour.words[number - 1]], [*fresh, spot]))
                written.update(dict.fromkeys(going[len(fresh) :]))
            known, fresh = number, []
    return written


def write(edits, region, written):
    """Words of a region with their places, none for one that goes; those that follow one another go at once."""
    first = last = None
    for word, spot in [*written.items(), (None, ())]:
        if spot is None and last is not None and word == last + 1:
            last = word
            continue
        if last is not None:
            (start, _), (_, end) = region.word_place(first), region.word_place(last)
            edits.edits[start] = end, edits.data[start:end].translate(None, OF_OPERATIONS)
        first = last = word if spot is None else None
        if spot:
            start, end = region.word_place(word)
            edits.edits[start] = end, b"X%dY%dD01" % spot


def name_before(data: bytes, at: int) -> bytes:
    """The word that gives the net name in force."""
    named = b""
    said = (it for sign in (b"TO.N", b"TD") for it in gerber_attributes.of_file(data, sign))
    for it in sorted(it for it in said if it.start < at and not it.is_comment):
        if it.kind == b"TO" and it.is_named(b".N"):
            named = b",".join(it.fields[1:])
        elif it.kind == b"TD" and it.fields[0] in (b"", b".N"):
            named = b""
    return b"%TD*%\n" + (b"%TO.N," + named + b"*%\n" if named else b"")


def is_ordered(data: bytes) -> bool:
    """Whether a word takes copper away, repeats it or bends an edge."""
    return any(re.match(form, it.text) for sign, form in ORDERED for it in holding(data, sign))


def ending_of(data: bytes) -> Optional[int]:
    """Where the word is that ends the file, or None where that is not its last one."""
    whole = data.rstrip(BLANKS)
    found = (len(whole) - len(end) for end in FILE_ENDS if whole.endswith(end))
    return next((at for at in found if is_at_word(whole, at)), None)


def rewrite(edits: Edits) -> None:
    """Cuts long contours; how many words each needs more is at the file's end."""
    data = edits.data
    ending = ending_of(data)
    if ending is None or is_ordered(data):
        return
    from .chords import cut  # few files have long contours

    for region in regions(data):
        for contour in region.contours():
            parts = cut(contour.corners[:-1]) if contour.is_closed() else None
            written = parts and in_place(contour, parts[0])
            if not written:
                continue
            write(edits, region, written)
            edits.insert(
                ending, name_before(data, region.end) + b"G01*\n" + b"".join(contour_of(part) for part in parts[1:])
            )
            what = (
                f"begins the first of {len(contour.words)} edges of a contour, which is cut into {len(parts)} of the"
                " same copper: the first stays in its place, the others stand at the file's end"
            )
            edits.note(*region.word_place(contour.words[0]), CONTOUR, what)


def contour_of(part):
    spots = [spot for spot, _ in part]
    return (
        b"G36*\n"
        + b"".join(b"X%dY%dD0%d*\n" % (*spot, 1 if k else 2) for k, spot in enumerate([*spots, spots[0]]))
        + b"G37*\n"
    )
