"""Copper layers: by the attribute that says so, else by the order in a comment, the layer name or the file name,
which is a guess."""
import re
from typing import List, NamedTuple, Optional, Sequence, Tuple, Union

from boardnet_show.formats import gerber_attributes
from boardnet_show.formats.gerber_lexer import holding
from boardnet_show.formats.layer_names import (
    Place,
    Said,
    contradicting,
    etched,
    is_negative_film,
    named,
    side_at_number,
)

from .file_names import Refused, shown

COPPER = re.compile(r"Copper,L([1-9][0-9]{0,8})(?:,(Top|Inr|Bot))?(?:,|$)")
# Altium and Protel count the copper layers of a board, from 1 at the top.
ORDER = re.compile(rb"G04[ \t]*Layer_Physical_Order[ \t]*=[ \t]*([0-9]{1,9})[ \t]*")
BY_HAND = "write the manifest by hand, or export Gerber X2"
INNER_ONES = ("inner from 1", "inner", "intern", "eagle", "group", "layer", "plane", "order")
RANK = {"top": 0, **dict.fromkeys(INNER_ONES, 1), "bottom": 2}
GAPS = ("intern", "eagle")  # numbers of inner layers that have gaps


class Layer(NamedTuple):
    """A copper file: its layer's number, what side its attribute says, and why it is taken as that (nothing where it
    says so)."""

    name: str
    number: int
    side: str
    why: str = ""


# What a file is guessed to be: a place, or its number in an order with the place that its names say; and by which
# evidence.
Placed = Union[Place, Tuple[str, int, Optional[Place]]]
Guess = Tuple[str, Placed, str]


def functions_of(data: bytes) -> List[str]:
    """What a file says that it is, each once."""
    return list(dict.fromkeys(it.printable_fields() for it in gerber_attributes.functions(data)))


def origin_of(data: bytes) -> Optional[str]:
    found = gerber_attributes.of_file(data, b"TF.SameCoordinates")
    return next((it.printable_fields() for it in found if it.is_named(b".SameCoordinates")), None)


def order_of(name: str, data: bytes) -> Optional[int]:
    """The number that a file's comment gives its copper among that of the board, or None."""
    comments = (ORDER.fullmatch(it.text) for it in holding(data, b"Layer_Physical_Order") if not it.inside)
    found = sorted({int(match[1]) for match in comments if match})
    if len(found) > 1:
        raise Refused(f"{name} says Layer_Physical_Order={found[0]} and {found[1]}: {BY_HAND}")
    return found[0] if found else None


def layer_of(name: str, function: str) -> Optional[Layer]:
    """The layer that a file function says, if it is one of copper."""
    found = COPPER.match(function)
    return Layer(name, int(found.group(1)), found.group(2) or "") if found else None


def one_layer(name: str, functions: Sequence[str]) -> Optional[Layer]:
    """The layer that the functions of a file say, if it is one of copper; refuses several functions, one of them of
    copper."""
    layers = [layer_of(name, function) for function in functions]
    if any(layers) and len({layer and layer.number for layer in layers}) > 1:
        raise Refused(
            f"{name} says of itself that it is {' and '.join(map(shown, functions))}: export it anew, or "
            "write the manifest by hand"
        )
    return layers[0]


def words_of(said: Said) -> str:
    """Which name says something, in words."""
    return said.source.value.format(shown(said.whole)).strip()


def need_one_place(name: str, data: bytes) -> None:
    """Refuses a file whose comments and name say different layers, copper of no known layer, and a film that only its
    comment calls negative."""
    both = contradicting(name, data)
    if both:
        raise Refused(f"{name}: {words_of(both[0])}, and it says another layer by {shown(both[1].whole)}: {BY_HAND}")
    said, copper = named(name, data), etched(data)
    if copper and not (said and said.layer()):
        raise Refused(
            f"{name}: {words_of(copper)}, which is copper, and no name says which layer of the board: " f"{BY_HAND}"
        )
    if said and said.layer() and is_negative_film(data):
        raise Refused(
            f"{name}: its comment says that its film is negative, and no word of it does: export positive "
            "films, or Gerber X2"
        )


def guess_of(name: str, data: bytes) -> Optional[Tuple[Placed, str]]:
    """What a file without an attribute may be by other evidence, and which; nothing where that is no copper."""
    need_one_place(name, data)
    said = named(name, data)
    place, what = (said.layer(), words_of(said)) if said else (None, "")
    order = order_of(name, data)
    if order is not None:
        return ("order", order, place), f"its comment says Layer_Physical_Order={order}"
    return (place, what) if place else None


def in_order(guesses: Sequence[Guess]) -> List[Layer]:
    """The layers that the guesses make, each a file, its place and why: top first, inner ones by number, bottom
    last."""
    listed = sorted(guesses, key=lambda guess: (RANK[guess[1][0]], guess[1][1], guess[0]))
    for one, other in zip(listed, listed[1:]):
        if one[1][:2] == other[1][:2]:
            raise Refused(
                f"{one[0]} and {other[0]} both look like the same copper layer: keep one of them in the " "folder"
            )
    kinds = {it[1][0] for it in listed}
    need_no_plane(listed)
    if "order" in kinds:
        need_order(listed)
    need_numbers(listed)
    inner = [it for it in listed if RANK[it[1][0]] == 1 and it[1][0] not in ("layer", "order")]
    if inner and [listed[0][1][0], listed[-1][1][0]] != ["top", "bottom"]:
        raise Refused(
            "there are inner copper layers, and no top or no bottom one: export all copper layers, as " "Gerber X2"
        )
    need_inner(inner)
    return [Layer(name, number, "", why) for number, (name, _, why) in enumerate(listed, 1)]


def need_numbers(listed: Sequence[Guess]) -> None:
    """Refuses layers by their numbers on the board, of which one is missing, or whose name says another side; the
    first and the last one may be the top and the bottom by name."""
    numbered = [it for it in listed if it[1][0] == "layer"]
    has_sides = len(listed) > 2 and [listed[0][1][0], listed[-1][1][0]] == ["top", "bottom"]
    wanted = list(range(2, len(listed)) if has_sides else range(1, len(listed) + 1))
    if numbered and [it[1][1] for it in listed if it[1][0] == "layer"] != wanted:
        raise Refused(
            f"the copper files {', '.join(it[0] for it in listed)} are not layers 1 to {len(listed)} by "
            f"their names: {BY_HAND}"
        )
    for name, (_, number, *_), _ in numbered:
        side = side_at_number(name)
        if side and number != (1 if side == "top" else len(listed)):
            raise Refused(
                f"{name} looks like layer {number} of {len(listed)}, and its name says another side: " f"{BY_HAND}"
            )


def need_no_plane(listed: Sequence[Guess]) -> None:
    """Refuses inner planes of Altium and Protel, which draw where there is no copper, and do not say so."""
    for name, (kind, _, *place), _ in listed:
        if kind == "plane":
            raise Refused(
                f"{name} looks like an inner plane, whose place among the layers no name says: export "
                "Gerber X2, or write the manifest by hand"
            )
        if place and place[0] and place[0][0] == "plane":
            raise Refused(
                f"{name} looks like an inner plane, which may be drawn as a negative without a word of it: "
                "export Gerber X2"
            )


def need_order(listed: Sequence[Guess]) -> None:
    """Refuses layers by the order in comments, where not all have one, some are missing, or a name says another
    side."""
    names, last = ", ".join(it[0] for it in listed), len(listed)
    if any(it[1][0] != "order" for it in listed):
        raise Refused(f"of the copper files {names} not all say their Layer_Physical_Order: {BY_HAND}")
    numbers = [it[1][1] for it in listed]
    if numbers != list(range(1, last + 1)):
        raise Refused(
            f"copper layers {', '.join(map(str, numbers))} by Layer_Physical_Order are not 1 to "
            f"{max(numbers)} without a gap: "
            "export every copper layer, or write the manifest by hand"
        )
    for name, (_, number, place), _ in listed:
        if place and last > 1 and not is_there(number, place, last):
            raise Refused(
                f"{name} says Layer_Physical_Order={number} of {last}, and its name says another place: " f"{BY_HAND}"
            )


def is_there(number: int, place: Place, last: int) -> bool:
    """Whether a layer's number fits what a name says of its place; those of inner layers count in another order."""
    if place[0] == "layer":
        return place[1] == number
    return (place[0] == "top") == (number == 1) and (place[0] == "bottom") == (number == last)


def need_inner(inner: Sequence[Guess]) -> None:
    """Refuses inner layers whose numbers count different things, or leave some out."""
    if not inner:
        return
    kinds, numbers, names = {it[1][0] for it in inner}, [it[1][1] for it in inner], ", ".join(it[0] for it in inner)
    if len({kind.split()[0] for kind in kinds}) > 1:
        raise Refused(f"the numbers of the inner layers {names} are of different kinds: {BY_HAND}")
    most = 1 if "inner from 1" in kinds else 2 if "inner" in kinds else numbers[0]
    if not kinds & set(GAPS) and (numbers != list(range(numbers[0], numbers[-1] + 1)) or numbers[0] > most):
        raise Refused(
            f"the inner layers {names} have the numbers {', '.join(map(str, numbers))}, so one is missing: "
            "export every copper layer, or write the manifest by hand"
        )


def judge(layers: Sequence[Layer]) -> List[Layer]:
    """Refuses said layers with doubles, gaps or no last one."""
    byhand = {}
    for layer in layers:
        if layer.number in byhand:
            raise Refused(
                f"{byhand[layer.number]} and {layer.name} both say that they are copper layer "
                f"{layer.number}: keep one of them in the folder"
            )
        byhand[layer.number] = layer.name
    numbers = sorted(byhand)
    if numbers != list(range(1, len(numbers) + 1)):
        raise Refused(
            f"copper layers {', '.join(map(str, numbers))} are not 1 to {numbers[-1]} without a gap: export "
            "every copper layer"
        )
    last = max(layers, key=lambda known: known.number)
    if last.number > 1 and last.side in ("Top", "Inr"):
        raise Refused(f"the last copper layer, {last.name}, says that it is no bottom layer: export every copper layer")
    if len(numbers) > 32:
        raise Refused(f"there are {len(numbers)} copper layers, and `check` takes 32")
    return sorted(layers, key=lambda known: known.number)
