"""A netlist of the names that the copper files give their own pads (Gerber Layer Format Specification, 5.6: .P, .N
and .C).

One test point for each part of a flash or a draw and each contour of a region with a pin, on the layer of its file;
where no file names a pin, one for each flash and contour with a net. What the flash of a block makes has a point for
each object of the block, by its own attributes or those of the flash. A pad of several nets has a point of each and
declares that they are tied. What is known so are opens and shorts against the copper's own names: that these are the
right ones nothing says.
"""
import re
from typing import Dict, Iterator, List, NamedTuple, Optional, Sequence, Tuple

from boardnet_show.base.statuses import UNCLEAR, UNREADABLE, Stop
from boardnet_show.base.wording import at_most, counted, spoken, with_ends
from boardnet_show.bounds.apertures.apertures import Block
from boardnet_show.bounds.files import bounded_file
from boardnet_show.bounds.polarity import dark_and_clear
from boardnet_show.formats import gerber_attributes, ipc356
from boardnet_show.formats.gerber_lexer import OPERATION, Parts, Word
from boardnet_show.formats.gerber_machine import CENTRE, CODES, DRAW, FLASH, Machine
from boardnet_show.geometry.box_tree import Tree
from boardnet_show.geometry.exact import Refused
from boardnet_show.geometry.pieces import Area, Both
from boardnet_show.intake.package import Package
from boardnet_show.judging import net_ties

from . import pad_places
from .own_names import MADE
from .pad_parts import parts

NO_NAMES = (
    "the copper files do not say of which pins or nets their pads are (TO.P, TO.N): export Gerber X2 with net"
    " attributes"
)


class Label(NamedTuple):
    """What is in force where an object is made; nothing is an empty text."""

    component: str
    pin: str
    names: tuple

    def within(self, outer: "Label") -> "Label":
        """That of an object of a block whose flash has another: its own, and what it lacks is the flash's."""
        component, pin = self[:2] if self.pin else outer[:2]
        return Label(component, pin, self.names or outer.names)


NONE = Label("", "", ())


class Point(NamedTuple):
    """A labelled object; `why` it is no test point where it is none, and so has no pad."""

    layer: int
    label: Label
    pad: pad_places.Pad
    is_known: bool  # whether the pad's copper is known, and not only bounded from above
    why: str = ""


NET_ALONE = "it has a net and no pin, while other pads have pins"
# The pin where a part alone is said.
UNKNOWN = "?"
DRAWN = "it is drawn and has a net alone, as tracks have"
NEGATIVE = "its file is negative"
CLEAR = "it takes copper away"
NO_COPPER = "it makes no copper"


def label_in_force(attributes: gerber_attributes.InForce) -> Label:
    """The label of the next object."""
    its = {name: [*map(gerber_attributes.printable_field, fields)] for name, fields in attributes.of_objects.items()}
    part, pin, *_ = [*its.get(".P", []), "", ""]
    pin = pin if pin.strip() or not part.strip() else UNKNOWN
    names = tuple(name for name in dict.fromkeys(its.get(".N", [])) if name.strip() not in ("", ipc356.NO_NET))
    return Label((part or next(iter(its.get(".C", [])), "")).strip(), pin.strip(), names)


class Pads(Machine):
    """The words of a copper file with its labelled objects and its blocks alone: walking all copper of a board would
    take long.

    `labels` are those of the commands of the new text that end an object, `tracks` the draws with a net of their own
    and no pin, `passed` labels outside of blocks that are no test points, with why: of such draws where nets are
    wanted, and of flashes and regions where pins are. Other draws and regions leave their last place, as what comes
    next may go on from it; where the file erases copper all words stay.
    """

    def __init__(self, data: bytes, wants_pins: bool) -> None:
        super().__init__()
        self.wants_pins, self.stays = wants_pins, b"LPC*" in data
        self.words, self.labels, self.label, self.first = [], {}, NONE, 0
        self.tracks, self.passed = set(), []
        self.read(data)

    def attribute(self, text: str) -> None:
        super().attribute(text)
        if text[:2] in ("TO", "TD"):
            self.label = label_in_force(self.attributes)

    def extended(self, word: Word) -> None:
        super().extended(word)
        if not word.text.startswith((b"TO", b"TD")):
            self.words.append((True, word.text, word.first))

    def plain(self, word: Word) -> None:
        text = word.text
        said = gerber_attributes.as_written(text)
        if said.startswith((b"TO", b"TD")):
            self.attribute(said.decode("latin-1"))
            return
        # G55 says that a flash comes, and a mend leaves it out.
        is_told = text.startswith(b"G55")
        match = OPERATION.fullmatch(text, 3) if is_told and len(text) > 3 else None
        if match:
            self.operated(text[3:], match.groups())
            return
        self.put(text[3:] if is_told else text)
        super().plain(word)

    def comment(self, text: bytes) -> None:
        """An attribute in a comment is heard above."""

    def put(self, text: bytes) -> None:
        self.words.append((False, text, True))

    def operation(self, parts: Parts) -> None:
        if CENTRE.fullmatch(parts[3]):
            self.operated(self.word.text, parts)
        else:
            self.put(self.word.text)

    def operated(self, text: bytes, parts: Parts) -> None:
        code = parts[-1]
        self.code = CODES[code] if code else self.code
        if not self.in_region and self.code in (None, DRAW):
            self.drawn(text, parts)
            return
        # The code is written, as words before may be gone.
        self.put(text + b"D03" if self.code is FLASH and not code else text)
        if self.code is FLASH:
            self.note()

    def note(self, is_draw: bool = False) -> bool:
        """Notes the label of the command that was last; answers whether it may be wanted."""
        found = self.label
        if found.pin or found.names:
            self.labels[len(self.words)] = found
        is_wanted = self.is_wanted(found)
        if found.names and not is_wanted and not self.depth and not is_draw:
            self.passed.append((found, NET_ALONE))
        return is_wanted

    def is_wanted(self, label: Label) -> bool:
        return bool(label.pin or label.names and not self.wants_pins)

    def drawn(self, text: bytes, parts: Parts) -> None:
        """A draw outside of regions."""
        label = self.label
        if self.is_wanted(label) and not label.pin and not self.depth:
            self.passed.append((label, DRAWN))
        if self.stays or self.depth or label.pin:
            self.put(text)
            self.note(is_draw=True)
            if not label.pin and label.names:
                self.tracks.add(len(self.words))
        else:
            self.leave([parts])

    def leave(self, many: Sequence[Parts]) -> None:
        """Writes the last mode and the last place of operations that go."""
        modes, xs, ys = ([it[k] for it in many if it[k]] for k in range(3))
        for mode in modes[-1:]:
            self.put(b"G0" + mode)
        place = b"".join([*(b"X" + x for x in xs[-1:]), *(b"Y" + y for y in ys[-1:])])
        self.put(place + b"D02")

    def region_begins(self) -> None:
        super().region_begins()
        self.first = len(self.words) - 1

    def region_ends(self) -> None:
        if not self.in_region:
            return
        super().region_ends()
        if self.note() or self.stays or self.depth:
            return
        inner, self.words[self.first :] = [text for _, text, _ in self.words[self.first :]], []
        self.leave([match.groups() for match in map(OPERATION.fullmatch, inner) if match])

    def marked_text(self) -> str:
        out = []
        for extended, word, first in self.words:
            if extended and not first:
                out[-1] = out[-1][:-1]
            out.append((b"%" if first else b"") + word + b"*%" if extended else word + b"*")
        return b"\n".join(out).decode("latin-1") + "\n"


def erased(objects):
    """For a piece, and the place of its object in the order, the pieces that later clear objects take away near it."""
    pieces = [(piece, at) for at, it in enumerate(objects) if not it.dark for piece in it.both[1]]
    tree = Tree([dark_and_clear.box(piece) for piece, _ in pieces]) if pieces else None

    def near(box, at):
        return [pieces[k][0] for k in tree.meeting(box) if pieces[k][1] > at] if tree else []

    return near


class Objects(bounded_file.Copper):
    """What a copper file makes, the contours of a region each as an object, since they may stand apart. A tag is the
    number of the command, and before it of an object in a block those of the flashes that make it."""

    def __init__(self, text: str) -> None:
        self.inner, self.regions = None, []
        super().__init__(text, cuts=True)

    def bounded(self, contour):
        made = super().bounded(contour)
        self.regions.append(made)
        return made

    def flash_block(self, block: Block) -> None:
        self.inner = iter([it.tag for it in block.objects])
        super().flash_block(block)
        self.inner = None

    def stays_as(self, dark: bool, both: Both, areas=None, joins: bool = True) -> None:
        tag = (self.number, *(next(self.inner) if self.inner else ()))
        for each in self.contours_of() if self.regions else [both]:
            super().stays_as(dark, each, areas, joins)
            self.objects[-1] = self.objects[-1]._replace(tag=tag)

    def contours_of(self) -> List[Both]:
        """Both sides of the contours of the region that ends."""
        made, self.regions = self.regions, []
        areas = lambda runs: [Area(run[:-1]) for run in runs]
        return [(areas(it.runs[0]), areas(it.runs[1]) + it.grown) for it in made]


def label_of(pads: Pads, tag: Tuple[int, ...]) -> Optional[Label]:
    """The label of an object that is a test point, or None."""
    label = NONE
    for command in tag:
        label = pads.labels.get(command, NONE).within(label)
    return None if tag[-1] in pads.tracks and not label.pin or not pads.is_wanted(label) else label


def points_of(text: str, layer: int, wants_pins: bool) -> Iterator[Point]:
    """The labelled objects of a copper file."""
    # Breaks within words say nothing of copper: `check` judges them.
    pads = Pads(text.encode("latin-1").translate(None, b"\r\n"), wants_pins)
    copper = Objects(pads.marked_text())
    near = erased(copper.objects)
    yield from (Point(layer, label, None, False, why) for label, why in pads.passed)
    for at, it in enumerate(copper.objects):
        label = label_of(pads, it.tag)
        if label:
            # What a negative file makes is where there is no copper.
            why = NEGATIVE if copper.negative else CLEAR if not it.dark else "" if any(it.both) else NO_COPPER
            is_contour = pads.words[it.tag[-1] - 1][1] == b"G37"
            for pieces, is_known in (
                parts(it.both) if not (why or is_contour) else [(it.both[0] or it.both[1], bool(it.both[0]))]
            ):
                yield Point(layer, label, None if why else pad_of(pieces, near, at), is_known, why)


def pad_of(pieces, near, at):
    """A pad of these pieces, wanted at the middle of their box."""
    boxes = [dark_and_clear.box(piece) for piece in pieces]
    left, low, right, high = (side(box[k] for box in boxes) for k, side in enumerate((min, min, max, max)))
    return pad_places.Pad(((left + right) // 2, (low + high) // 2), pieces, near((left, low, right, high), at))


def text_at(package: Package, name: str) -> str:
    try:
        return package.read(name).decode("latin-1")
    except OSError:
        raise Stop(UNREADABLE, f"{name}: cannot be read") from None


def all_points(package: Package) -> List[Point]:
    """The points of all copper files: those of pins, or where there are none those of nets."""
    texts, found = {name: text_at(package, name) for name in package.manifest.copper}, []
    wants_pins = any(gerber_attributes.has_names(text.encode("latin-1"), b".P", 2) for text in texts.values())
    for layer, name in enumerate(package.manifest.copper, 1):
        try:
            found += points_of(texts[name], layer, wants_pins) if "TO." in texts[name] else []
        except Refused as why:
            raise Stop(
                UNCLEAR, f"{name}: its pads cannot be read ({why}), so their own names cannot be judged"
            ) from None
    return found


# ---- the netlist


def named(names: Sequence[str]) -> Dict[str, str]:
    """What stands for each name in 14 columns: itself, or an alias."""
    return {
        name: name if ipc356.PLAIN_NAME.fullmatch(name) else f"NNAME{number}" for number, name in enumerate(names, 1)
    }


def lines_of(point, place, name):
    component, pin = point.label.component, point.label.pin
    if not re.fullmatch("[!-~]{0,6}", component) or not re.fullmatch("[!-~]{0,4}", pin):
        yield ipc356.pin_comment(component, pin)
        component, pin = (re.sub("[^!-~]", "?", word) for word in (component, pin))
    yield ipc356.record_line(ipc356.Written(ipc356.SURFACE, name, component, pin, point.layer, place.x, place.y))


def text_of(found, unit, places):
    """The netlist as a text."""
    names = named(list(dict.fromkeys(name for it in found for name in it.label.names)))
    lines = [MADE, ipc356.units_line(unit)]
    lines += [ipc356.alias_line(alias, with_ends(name)) for name, alias in names.items() if alias != name]
    for point, place in zip(found, places):
        for name in point.label.names or (ipc356.NO_NET,) if place else ():
            lines += lines_of(point, place, names.get(name, ipc356.NO_NET))
    return ipc356.file_text(lines).encode()


def notes_of(package, found, lost, unit, places):
    """What was taken, which labelled objects are no test points and which points are not at the middles of their
    pads."""
    kept = [(point, place) for point, place in zip(found, places) if place]
    names, files = {name for it, _ in kept for name in it.label.names}, sorted({it.layer for it in found})
    count = sum(max(1, len(it.label.names)) for it, _ in kept)
    told = [
        f"names: {counted(count, 'test point')} of {counted(len(names), 'net')} by the attributes of "
        f"{spoken(package.manifest.copper[layer - 1] for layer in files)} (a netlist of their own, which --keep keeps)"
    ]
    moved = max((place.off for _, place in kept), default=0)
    if moved > unit * unit:
        told.append(f"names: no test point is more than {at_most(moved ** 0.5)} mm from the middle of its pad")
    for words, some in (
        (
            "its copper has no place on the netlist's grid and is no test point",
            [it for it, place in zip(found, places) if not place],
        ),
        (
            "later clear objects leave no place of its copper that was found, so its test point is where that would be",
            [it for it, place in kept if pad_places.is_erased(it.pad, place, unit)],
        ),
        (
            "its copper is known from above alone, so its test point may lie beside it",
            [it for it, _ in kept if not it.is_known],
        ),
        (
            "it is of several nets, so they are declared to be tied: a test point of each is there",
            [it for it, _ in kept if len(it.label.names) > 1],
        ),
    ):
        if some:
            told.append(f"names: {counted(len(some), 'pad')}, first {pin_of(package, some[0])}: {words}")
    for why in dict.fromkeys(it.why for it in lost):
        some = [it for it in lost if it.why == why]
        told.append(
            f"names: {counted(len(some), 'labelled object')}, first {pin_of(package, some[0])}: {why}, and is no test"
            " point"
        )
    return told


def pin_of(package: Package, point: Point) -> str:
    layer = package.manifest.layer_word(point.layer)
    return (
        f"{point.label.component} pin {point.label.pin} ({layer})"
        if point.label.pin
        else f"one of {point.label.names[0]} ({layer})"
    )


def tied(package, found):
    """The ties that pads of several nets declare."""
    for it in found:
        for names in zip(it.label.names, it.label.names[1:]):
            yield net_ties.Tie(names, f"{package.manifest.copper[it.layer - 1]}, {pin_of(package, it)}")


def need_holes(package: Package, found: Sequence[Point]) -> None:
    """Refuses a board of several layers without holes whose pins stand on several."""
    layers = {}
    for it in found:
        if it.label.pin:
            layers.setdefault(it.label[:2], set()).add(it.layer)
    through = sum(len(of) > 1 for of in layers.values())
    if through and not package.manifest.drills:
        raise Stop(
            UNCLEAR,
            (
                f"{counted(through, 'pin')} of the copper files stand on several layers, and there is no "
                "drill file of plated holes, which join them: "
                "export it in the Excellon format; where the board truly has no plated hole, say --no-drills"
            ),
        )


def use(package: Package, may_lack_holes: bool) -> List[str]:
    """Has the package judged by a netlist of the copper's own names; answers the notes."""
    labelled = all_points(package)
    found, lost = [it for it in labelled if it.pad], [it for it in labelled if not it.pad]
    if not found:
        raise Stop(UNCLEAR, NO_NAMES)
    if package.is_made and not may_lack_holes:
        need_holes(package, found)
    unit, places = pad_places.settled([it.pad for it in found])
    package.theirs, package.own = package.manifest.netlist, package.free_name("names", ".ipc")
    package.manifest = package.manifest.changed(netlist=package.own)
    package.put(package.own, text_of(found, unit, places))
    package.put(package.name, package.manifest.json_text().encode())
    package.ties = list(tied(package, [it for it, place in zip(found, places) if place]))
    return notes_of(package, found, lost, unit, places)
