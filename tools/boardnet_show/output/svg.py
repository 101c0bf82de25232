"""A picture for a mail or a ticket: the whole board with its findings, or the place of one finding. Lengths are
micrometres."""
from typing import Dict, Iterator, List, Optional, Sequence, Tuple

from boardnet_show.base.statuses import NOT_UNDERSTOOD, Stop
from boardnet_show.findings.finding import Finding
from boardnet_show.geometry.box_grid import meet as boxes_meet
from boardnet_show.geometry.box_tree import apart, cover
from boardnet_show.geometry.shapes import Shapes

from .markup import escaped, for_xml
from .rdb import micrometres
from .sentences import findings
from .shown import Shown

Place = Tuple[int, int]
Box = Tuple[int, int, int, int]
# Room round a finding, the least side of what is shown, both in u, and the width of the picture in pixels.
ROOM, LEAST, WIDTH = 10_000_000, 60_000_000, 1000
STYLE = (
    ".copper { fill: #c9ced6; stroke: #c9ced6; } .a { fill: #0072b2; stroke: #0072b2; } "
    ".b { fill: url(#stripes); stroke: url(#stripes); }\n"
    ".c { fill: #f5d000; stroke: #f5d000; } .area { stroke: none; fill-rule: evenodd; } "
    ".line { fill: none; stroke-linecap: round; }\n"
    ".hole { fill: #ffffff; stroke: #16191d; } .slot { stroke: #ffffff; } .wider { fill: none; stroke: #a0006b; } "
    ".mark { fill: none; stroke: #a0006b; } .path { fill: none; stroke: #000000; }\n"
    'text { font-family: "DejaVu Sans", sans-serif; fill: #16191d; stroke: #ffffff; stroke-width: 0.25em; '
    "paint-order: stroke; }"
)
STRIPES = (
    '<pattern id="stripes" patternUnits="userSpaceOnUse" width="{0}" height="{0}" patternTransform="rotate(45)">'
    '<rect width="{0}" height="{0}" fill="#d55e00"/><rect width="{1}" height="{0}" fill="#ffe2cc"/></pattern>'
)


def point(place: Place) -> str:
    """A place, with y upwards."""
    return f"{micrometres(round(place[0]))} {micrometres(-round(place[1]))}"


def solid(shapes: Shapes, piece: int, word: str) -> str:
    """A piece as an element."""
    places, r = shapes.places(piece), shapes.radius[piece]
    if shapes.is_area(piece):
        return f'<path class="area {word}" d="M{"L".join(map(point, places))}Z"/>'
    if len(places) == 1:
        x, y = point(places[0]).split(" ")
        return f'<circle class="area {word}" cx="{x}" cy="{y}" r="{micrometres(r)}"/>'
    return stroke(places, r, word)


def stroke(places: Sequence[Place], r: int, word: str) -> str:
    return f'<path class="line {word}" stroke-width="{micrometres(2 * r)}" d="M{point(places[0])}L{point(places[1])}"/>'


class Picture:
    """What is drawn of a board, and how each piece is."""

    def __init__(self, shown: Shown, finding: Optional[Finding]) -> None:
        self.shown, self.board, self.finding = shown, shown.board, finding
        self.box = self.finding_box(finding) if finding else self.whole_box()
        # A pixel, in u.
        self.pixel = max(1, (self.box[2] - self.box[0]) // WIDTH)

    def whole_box(self) -> Box:
        boxes = [self.board.touching.box(piece) for piece in range(self.board.report.pieces)]
        boxes += [spot * 2 for spot in self.board.report.spots]
        return grown(cover(boxes) if boxes else (0, 0, LEAST, LEAST), ROOM // 2)

    def finding_box(self, finding: Finding) -> Box:
        """Its points with the copper beside them, or the chains of a short's names with where they meet, and what
        lies round them."""
        shapes, meets = self.board.shapes, finding.meets[:3]
        spots = [self.board.spot(number) for number in finding.points] if finding.kind != "gap" else []
        places = [meet.place for meet in meets] or spots + ([finding.gap.place] if finding.gap else [])
        places += self.beside(places[0], self.board.layer(finding.points[0])) if finding.kind == "missing" else []
        chains = [shapes.box(piece) for meet in meets for piece in meet.chain if not shapes.is_area(piece)]
        box = grown(cover(chains + [tuple(place) * 2 for place in places]), ROOM)
        wide, high = max(0, LEAST - box[2] + box[0]) // 2, max(0, LEAST * 5 // 8 - box[3] + box[1]) // 2
        return box[0] - wide, box[1] - high, box[2] + wide, box[3] + high

    def beside(self, spot: Place, layer: int) -> List[Place]:
        """Where the box of a layer's copper is nearest to a spot, if there is any."""
        boxes = [
            self.board.touching.box(piece)
            for piece, source in enumerate(self.board.report.sources)
            if source[3] <= layer <= source[4]
        ]
        if not boxes:
            return []
        left, low, right, high = min(boxes, key=lambda box: int(apart(box, spot * 2)))
        return [(min(max(spot[0], left), right), min(max(spot[1], low), high))]

    def words(self) -> Dict[int, str]:
        """How a piece is drawn: `a` and `b` are the sides of the finding, `c` what could be either's."""
        it = self.finding
        if not it:
            return {}
        if it.kind != "short":
            return {piece: "ab"[k] for k, net in enumerate(it.nets) for piece in self.board.pieces_of[net]}
        names = it.meets[0].names if it.meets else ()
        look = dict(zip(names, "ab"))
        return {
            piece: look.get(it.sides.get(piece), "c" if piece not in it.sides else "copper")
            for piece in self.board.pieces_of[it.nets[0]]
        }

    def front(self) -> int:
        """The layer that is drawn last, and full: the finding's."""
        it = self.finding
        if not it:
            return 1
        return int(it.meets[0].layer if it.meets else it.gap.layer if it.gap else self.board.layer(it.points[0]))

    def copper(self) -> Iterator[str]:
        """The copper, the layer in front last, then the holes."""
        words, sources, manifest = self.words(), self.board.report.sources, self.board.manifest
        seen = [
            piece for piece in range(self.board.report.pieces) if boxes_meet(self.board.touching.box(piece), self.box)
        ]
        holes = {piece for piece in seen if manifest.is_drilled(sources[piece][0])}
        for layer in sorted(range(1, manifest.layers + 1), key=lambda layer: (layer == self.front(), -layer)):
            pieces = [piece for piece in seen if sources[piece][3] == layer and piece not in holes]
            yield f'<g opacity="{1 if layer == self.front() else 0.4}">'
            yield from (
                solid(self.board.shapes, piece, words.get(piece, "copper"))
                for piece in sorted(pieces, key=lambda piece: (piece in words, piece))
            )
            yield from self.wider(layer)
            yield "</g>"
        yield f'<g stroke-width="{micrometres(self.pixel)}">'
        for piece in sorted(holes):
            yield from self.hole(piece)
        yield "</g>"

    def wider(self, layer: int) -> Iterator[str]:
        """What the upper of two bounds has beyond the lower one, by its outline in dashes."""
        dash = micrometres(3 * self.pixel)
        for of, corners in self.shown.seen.wider:
            if of == layer:
                yield (
                    f'<path class="wider" stroke-width="{micrometres(self.pixel)}" stroke-dasharray="{dash}"'
                    f' d="M{"L".join(map(point, corners))}Z"/>'
                )

    def hole(self, piece: int) -> Iterator[str]:
        """A hole with a dark rim, of a slot by a wider stroke below."""
        shapes = self.board.shapes
        yield solid(shapes, piece, "hole")
        if len(shapes.places(piece)) == 2:
            yield stroke(shapes.places(piece), max(0, shapes.radius[piece] - self.pixel), "slot")

    def marks(self) -> Iterator[str]:
        """The places of the findings."""
        yield f'<g class="mark" stroke-width="{micrometres(3 * self.pixel)}">'
        for it in [self.finding] if self.finding else self.shown.findings:
            yield from self.marks_of(it)
        yield "</g>"

    def marks_of(self, finding: Finding) -> Iterator[str]:
        spots, size = [self.board.spot(number) for number in finding.points], 9 * self.pixel
        if finding.kind == "open":
            dash = micrometres(8 * self.pixel)
            yield f'<path stroke-dasharray="{dash} {dash}" d="M{point(spots[0])}L{point(spots[1])}"/>'
        elif finding.kind == "missing":
            x, y = spots[0]
            yield (
                "<path"
                f' d="M{point((x - size, y))}L{point((x + size, y))}M{point((x, y - size))}L{point((x, y + size))}"/>'
                + ring(spots[0], size)
            )
        if finding.gap:
            yield ring(finding.gap.place, size)
        for x, y in [found.place for found in finding.meets]:
            yield (
                "<path"
                f' d="M{point((x - size, y))}L{point((x, y + size))}L{point((x + size, y))}L{point((x, y - size))}Z"/>'
            )

    def labels(self) -> Iterator[str]:
        """The pins of the finding's points, and what the picture is of."""
        size, (left, low, _, _) = 16 * self.pixel, self.box
        head = f"{self.finding.id}: {findings.heading(self.finding)}" if self.finding else self.shown.brief
        rows = [(head, (left + size // 2, low + size // 2))]
        for number in self.finding.points[:12] if self.finding else []:
            x, y = self.board.spot(number)
            rows.append(
                (
                    f"{findings.pin_words(self.board.pin(number))} ({self.board.name(self.board.name_of(number))})",
                    (x + size // 2, y + size // 2),
                )
            )
        for told, place in rows:
            x, y = point(place).split(" ")
            is_right = place[0] + size * len(told) * 6 // 10 > self.box[2]
            anchor = ' text-anchor="end"' if is_right else ""
            yield f'<text x="{x}" y="{y}"{anchor} font-size="{micrometres(size)}">{escaped(told)}</text>'

    def rows(self) -> Iterator[str]:
        left, low, right, high = self.box
        height = max(1, WIDTH * (high - low) // max(1, right - left))
        told = findings.sentence(self.finding) if self.finding else self.shown.sentence(self.shown.title)
        yield (
            f'<svg xmlns="http://www.w3.org/2000/svg" width="{WIDTH}" height="{height}" role="img" '
            f'viewBox="{point((left, high))} {micrometres(right - left)} {micrometres(high - low)}">'
        )
        yield (
            f"<title>{escaped(self.finding.id if self.finding else self.shown.title)}</title>\n"
            f"<desc>{escaped(told)}</desc>\n<style>{STYLE}</style>"
        )
        yield STRIPES.format(micrometres(10 * self.pixel), micrometres(4 * self.pixel))
        yield f'<rect x="{micrometres(left)}" y="{micrometres(-high)}" width="100%" height="100%" fill="#ffffff"/>'
        yield from self.copper()
        yield from self.marks()
        yield from self.labels()
        yield "</svg>\n"


def ring(place: Place, size: int) -> str:
    x, y = point(place).split(" ")
    return f'<circle cx="{x}" cy="{y}" r="{micrometres(size)}"/>'


def grown(box: Box, by: int) -> Box:
    return box[0] - by, box[1] - by, box[2] + by, box[3] + by


def picture(shown: Shown, wanted: Optional[str]) -> str:
    """The picture of a board, or of the finding of that name."""
    finding = next((it for it in shown.findings if it.id == wanted), None)
    if wanted and not finding:
        raise Stop(NOT_UNDERSTOOD, f"--at {wanted}: there is no such finding")
    return for_xml("\n".join(Picture(shown, finding).rows()))
