"""What is declared of a board, as a file beside it says it and is written: JSON, whose lengths are millimetres
(docs/using/declarations.md).

Nothing that is not understood is passed over: a word that is misspelt is refused.
"""
import json
import re
from typing import Any, Callable, Dict, List, NamedTuple, Sequence, Tuple

from boardnet_show.base.statuses import NOT_UNDERSTOOD, Stop
from boardnet_show.base.wording import printable
from boardnet_show.findings.finding import CUT, GAP, MISSING, NECK, OPEN, OUTSIDE, SHORT
from boardnet_show.findings.waivers import BESIDES, KINDS, MOST_WITHIN, WITHIN, Waiver
from boardnet_show.formats import indented_json
from boardnet_show.formats.units import MM
from boardnet_show.intake.package import Drilled, Taken

from . import access_codes
from .changes import (
    Change,
    CodesRead,
    CopperPlaced,
    DecimalsRead,
    DigitsRead,
    DrillsPlaced,
    LayersOrdered,
    NetlistPlaced,
)
from .placement import FORMS

FORM = 1
KEYS = ("changes", "made", "taken", "plated", "ties", "waivers")
CHANGES = ("netlist", "drills", "copper", "layers", "digits", "codes")
TURNS = [words for words, _ in FORMS]
UNITS = {"mm": 10_000, "inch": 25_400}
WAIVER_KEYS = ("pins", "places", "within", "nets", "width", "parts", "without_copper", "undecided")
# Which kinds of finding may have a key, and which must.
OF_KINDS = {
    "within": (SHORT, GAP, CUT, NECK),
    "nets": (GAP,),
    "width": (NECK,),
    "parts": (CUT, OUTSIDE, NECK),
    "without_copper": (CUT, OUTSIDE, NECK),
}
MUST_HAVE = {
    "pins": (OPEN, MISSING, CUT, OUTSIDE, NECK),
    "places": (SHORT, MISSING, GAP, CUT, OUTSIDE, NECK),
    "nets": (GAP,),
    "parts": (CUT, NECK),
}
LEAST_WITHIN = {GAP: MM // 10}
DATE = re.compile(r"\d{4}-(?:0[1-9]|1[0-2])-(?:0[1-9]|[12]\d|3[01])")


class Declared(NamedTuple):
    """`changes` are made of the files, in order; `made` were made of them before. `taken` is what files are taken as,
    `drilled` which of them are plated and the layers of their holes; `source` is the file."""

    source: str = ""
    changes: Tuple[Change, ...] = ()
    made: Tuple[Change, ...] = ()
    taken: Tuple[Taken, ...] = ()
    drilled: Tuple[Drilled, ...] = ()
    ties: Tuple[str, ...] = ()
    waivers: Tuple[Waiver, ...] = ()
    netlist: str = ""
    has_no_drills: bool = False


class Reader:
    """The parts of a file's JSON; what is amiss stops."""

    def __init__(self, source: str) -> None:
        self.source = source

    def stop(self, why: str) -> Stop:
        return Stop(NOT_UNDERSTOOD, f"{self.source}: {printable(why)}")

    def need(self, is_so: bool, why: str) -> None:
        if not is_so:
            raise self.stop(why)

    def fields(self, value: Any, names: Sequence[str], must: Sequence[str] = ()) -> Dict[str, Any]:
        """An object of these names alone, with some that must be there."""
        self.need(isinstance(value, dict), f"{json.dumps(value)[:60]} is no object")
        for name in value:
            self.need(name in names, f"`{name}` is none of {', '.join(names)}")
        for name in must:
            self.need(name in value, f"`{name}` is missing in {json.dumps(value)[:80]}")
        return dict(value)

    def texts(self, value: Any, what: str) -> Tuple[str, ...]:
        self.need(
            isinstance(value, list) and bool(value) and all(isinstance(it, str) and it for it in value),
            f"{what} is no list of names",
        )
        return tuple(value)

    def words(self, value: Any, what: str) -> str:
        self.need(isinstance(value, str) and bool(value.strip()), f"{what} is empty or no text")
        return str(value)

    def length(self, value: Any) -> int:
        """A length in millimetres, exactly."""
        text = value if isinstance(value, str) else json.dumps(value)
        found = re.fullmatch(r"(-?)(\d{1,4})(?:\.(\d{1,7}))?", text)
        self.need(
            bool(found) and not isinstance(value, bool),
            f"{text[:40]} is no length in millimetres with at most seven decimals",
        )
        sign, whole, part = found.groups() if found else ("", "0", "")
        return (-1 if sign else 1) * (int(whole) * MM + int((part or "").ljust(7, "0")))

    def shift(self, value: Any) -> Tuple[int, int]:
        self.need(isinstance(value, list) and len(value) == 2, "`moved` is two lengths, [x, y]")
        return self.length(value[0]), self.length(value[1])

    def whole(self, value: Any, least: int, most: int, what: str) -> int:
        self.need(
            isinstance(value, int) and not isinstance(value, bool) and least <= value <= most,
            f"{what} is no whole number from {least} to {most}",
        )
        return int(value)

    # ---- changes

    def placed(self, its: Dict[str, Any]) -> Tuple[int, Tuple[int, int]]:
        turn = its.get("turn", "")
        self.need(turn in TURNS, f"`turn` is none of {', '.join(filter(None, TURNS))}")
        return TURNS.index(turn), self.shift(its["moved"]) if "moved" in its else (0, 0)

    def netlist(self, value: Any) -> NetlistPlaced:
        its = self.fields(value, ("of", "unit", "turn", "moved"))
        self.need(its.get("unit", "mm") in UNITS, f"`unit` is none of {', '.join(UNITS)}")
        self.need(len(its) > 1, "it says nothing of the netlist")
        return NetlistPlaced(UNITS[its["unit"]] if "unit" in its else None, *self.placed(its))

    def drills(self, value: Any) -> DrillsPlaced:
        its = self.fields(value, ("of", "files", "turn", "moved"))
        files = self.texts(its["files"], "`files`") if "files" in its else ()
        change = DrillsPlaced(files, not files, *self.placed(its))
        self.need(change[2:] != (0, (0, 0)), "it says nothing of the drills")
        return change

    def copper(self, value: Any) -> CopperPlaced:
        change = CopperPlaced(*self.placed(self.fields(value, ("of", "turn", "moved"))))
        self.need(change != (0, (0, 0)), "it says nothing of the copper")
        return change

    def layers(self, value: Any) -> LayersOrdered:
        return LayersOrdered(self.texts(self.fields(value, ("of", "order"), ("order",))["order"], "`order`"))

    def digits(self, value: Any) -> DecimalsRead:
        its = self.fields(value, ("of", "files"), ("files",))
        self.need(isinstance(its["files"], list) and bool(its["files"]), "`files` is no list")
        return DecimalsRead(tuple(map(self.digits_of, its["files"])))

    def digits_of(self, value: Any) -> DigitsRead:
        """Decimals behind, with leading zeros left out; with `digits` numbers are filled up behind to so many."""
        its = self.fields(value, ("file", "decimals", "digits"), ("file", "decimals"))
        decimals = self.whole(its["decimals"], 1, 8, "`decimals`")
        width = self.whole(its["digits"], decimals + 1, 12, "`digits`") if "digits" in its else 0
        return DigitsRead(self.words(its["file"], "`file`"), decimals, width)

    def codes(self, value: Any) -> CodesRead:
        its = self.fields(value, ("of", "rule"), ("rule",))
        names = [name for name, _ in access_codes.RULES]
        self.need(its["rule"] in names, f"`rule` is none of {', '.join(names)}")
        return CodesRead(its["rule"], 0, 0)

    def change(self, value: Any) -> Change:
        of: Tuple[Callable[[Any], Change], ...] = (
            self.netlist,
            self.drills,
            self.copper,
            self.layers,
            self.digits,
            self.codes,
        )
        kind = value.get("of") if isinstance(value, dict) else None
        self.need(kind in CHANGES, f"a change is `of` one of {', '.join(CHANGES)}")
        return of[CHANGES.index(str(kind))](value)

    # ---- all else

    def taken(self, value: Any) -> Taken:
        its = self.fields(value, ("file", "as"), ("file", "as"))
        return Taken(self.words(its["file"], "`file`"), self.words(its["as"], "`as`"))

    def drilled(self, value: Any) -> Drilled:
        its = self.fields(value, ("file", "from", "to"), ("file", "from", "to"))
        first = self.whole(its["from"], 1, 32, "`from`")
        return Drilled(self.words(its["file"], "`file`"), first, self.whole(its["to"], first, 32, "`to`"))

    def tie(self, value: Any) -> str:
        names = self.texts(value, "a tie")
        self.need(len(names) == 2 and not any("=" in name for name in names), "a tie is two names without the sign =")
        return "=".join(names)

    def spot(self, value: Any, more: Tuple[str, ...] = ()) -> Tuple[int, int, int]:
        its = self.fields(value, ("x", "y", "layer", *more), ("x", "y", "layer", *more))
        return self.length(its["x"]), self.length(its["y"]), self.whole(its["layer"], 1, 32, "`layer`")

    def list_of(self, its: Dict[str, Any], key: str) -> List[Any]:
        value = its.get(key, [])
        self.need(isinstance(value, list), f"`{key}` is no list")
        return list(value)

    def waiver(self, value: Any) -> Waiver:
        must = ("kind", "names", "reason", "author", "date")
        its = self.fields(value, (*must, *WAIVER_KEYS), must)
        kind = its["kind"]
        self.need(kind in KINDS, f"`kind` is none of {', '.join(KINDS)}")
        self.need(bool(DATE.fullmatch(str(its["date"]))), "`date` is no day as 2026-12-01")
        for key, kinds in OF_KINDS.items():
            self.need(key not in its or kind in kinds, f"a waiver of a finding of the kind {kind} has no `{key}`")
        for key, kinds in MUST_HAVE.items():
            self.need(
                kind not in kinds or bool(its.get(key)), f"a waiver of a finding of the kind {kind} has its {key}"
            )
        pins, places = self.list_of(its, "pins"), self.list_of(its, "places")
        self.need(
            kind != MISSING or len(places) == len(pins) == 1, "a waiver of a missing point has one pin and one place"
        )
        self.need(its.get("undecided", True) is True, "`undecided` is not true")
        waiver = Waiver(
            kind,
            self.texts(its["names"], "`names`"),
            self.words(its["reason"], "`reason`"),
            self.words(its["author"], "`author`"),
            its["date"],
            tuple(frozenset(self.texts(it, "`pins`")) for it in pins),
            tuple(self.spot(it, ("distance",) if kind == GAP else ()) for it in places),
            self.within(its),
            self.source,
            is_undecided="undecided" in its,
        )
        return self.gap(waiver, its) if kind == GAP else self.parted(waiver, its) if kind in BESIDES else waiver

    def within(self, its: Dict[str, Any]) -> int:
        within, least = self.length(its["within"]) if "within" in its else WITHIN, LEAST_WITHIN.get(its["kind"], 1)
        self.need(
            least <= within <= MOST_WITHIN,
            f"`within` is at least {millimetres(least)} and at most {millimetres(MOST_WITHIN)} mm",
        )
        return within

    def gap(self, waiver: Waiver, its: Dict[str, Any]) -> Waiver:
        """A waiver with the names of both nets of a gap, and how near they may come at each place."""
        nets = self.list_of(its, "nets")
        self.need(len(nets) == 2 and all(isinstance(net, list) for net in nets), "`nets` are two lists of names")
        sides = tuple(self.texts(net, "`nets`") if net else () for net in nets)
        self.need({*sides[0], *sides[1]} == set(waiver.names), "`nets` have other names than `names`")
        distances = tuple(self.length(it["distance"]) for it in its["places"])
        self.need(min(distances) >= 0, "a `distance` is under 0")
        return waiver._replace(nets=sides, distances=distances)

    def parted(self, waiver: Waiver, its: Dict[str, Any]) -> Waiver:
        """A waiver with what it says of parts of a net, or of points outside the board's edge."""
        bare = self.list_of(its, "without_copper")
        width = self.length(its.get("width", 0))
        self.need(width >= 0, "`width` is under 0")
        return waiver._replace(
            parts=self.whole(its.get("parts", 0), 0, 10**6, "`parts`"),
            bare=frozenset(self.texts(bare, "`without_copper`") if bare else ()),
            width=width,
        )

    def all_of(self, value: Any, key: str, of: Callable[[Any], Any]) -> Tuple[Any, ...]:
        its = value.get(key, [])
        self.need(isinstance(its, list), f"`{key}` is no list")
        return tuple(map(of, its))

    def declared(self, value: Any) -> Declared:
        its = self.fields(value, ("boardnet", *KEYS, "netlist", "no_drills"), ("boardnet",))
        self.need(its["boardnet"] == FORM and not isinstance(its["boardnet"], bool), f"its form is not {FORM}")
        of: Dict[str, Callable[[Any], Any]] = {
            "changes": self.change,
            "made": self.change,
            "taken": self.taken,
            "plated": self.drilled,
            "ties": self.tie,
            "waivers": self.waiver,
        }
        self.need(its.get("no_drills", True) is True, "`no_drills` is not true")
        netlist = self.words(its["netlist"], "`netlist`") if "netlist" in its else ""
        changes, made, taken, drilled, ties, waivers = (self.all_of(its, key, of[key]) for key in KEYS)
        return Declared(self.source, changes, made, taken, drilled, ties, waivers, netlist, "no_drills" in its)


def once(pairs: List[Tuple[str, Any]]) -> Dict[str, Any]:
    """An object whose names differ: a reader and a program might take another one of two."""
    if len(dict(pairs)) < len(pairs):
        raise ValueError
    return dict(pairs)


def of_bytes(data: bytes, source: str) -> Declared:
    """What a file declares; lengths stay the decimals that are written."""
    try:
        value = json.loads(data.decode("utf-8-sig"), object_pairs_hook=once, parse_float=str)
    except (ValueError, RecursionError):
        raise Stop(NOT_UNDERSTOOD, f"{source}: it is no JSON, or has a name twice") from None
    return Reader(source).declared(value)


# ---- back


def millimetres(u: int) -> Any:
    """A length as JSON has it: its decimal text is exact."""
    return u / MM if u % MM else u // MM


def placed_values(turn: int, by: Tuple[int, int]) -> Dict[str, Any]:
    return {
        **({"turn": TURNS[turn]} if turn else {}),
        **({"moved": [*map(millimetres, by)]} if tuple(by) != (0, 0) else {}),
    }


def change_values(change: Change) -> Dict[str, Any]:
    if isinstance(change, NetlistPlaced):
        unit = {code: word for word, code in UNITS.items()}
        return {
            "of": "netlist",
            **({"unit": unit[change.unit]} if change.unit else {}),
            **placed_values(change.turn, change.by),
        }
    if isinstance(change, DrillsPlaced):
        return {
            "of": "drills",
            **({} if change.are_all else {"files": list(change.files)}),
            **placed_values(change.turn, change.by),
        }
    if isinstance(change, CopperPlaced):
        return {"of": "copper", **placed_values(change.turn, change.by)}
    if isinstance(change, LayersOrdered):
        return {"of": "layers", "order": list(change.order)}
    if isinstance(change, DecimalsRead):
        return {
            "of": "digits",
            "files": [
                {"file": it.file, "decimals": it.decimals, **({"digits": it.width} if it.width else {})}
                for it in change.files
            ],
        }
    return {"of": "codes", "rule": change.rule}


def spot_values(waiver: Waiver, k: int) -> Dict[str, Any]:
    x, y, layer = waiver.places[k]
    distance = {"distance": millimetres(waiver.distances[k])} if waiver.distances else {}
    return {"x": millimetres(x), "y": millimetres(y), "layer": layer, **distance}


def waiver_values(waiver: Waiver) -> Dict[str, Any]:
    its: Dict[str, Any] = {"kind": waiver.kind, "names": list(waiver.names)}
    if waiver.nets:
        its["nets"] = [list(names) for names in waiver.nets]
    if waiver.pins:
        its["pins"] = [sorted(pins) for pins in waiver.pins]
    if waiver.parts:
        its["parts"] = waiver.parts
    if waiver.bare:
        its["without_copper"] = sorted(waiver.bare)
    if waiver.places:
        its["places"] = [spot_values(waiver, k) for k in range(len(waiver.places))]
    if waiver.kind in OF_KINDS["within"]:
        its["within"] = millimetres(waiver.within)
    if waiver.kind == NECK:
        its["width"] = millimetres(waiver.width)
    if waiver.is_undecided:
        its["undecided"] = True
    return {**its, "reason": waiver.reason, "author": waiver.author, "date": waiver.date}


def values(declared: Declared) -> Dict[str, Any]:
    rows: Dict[str, List[Any]] = {
        "changes": [*map(change_values, declared.changes)],
        "made": [*map(change_values, declared.made)],
        "taken": [{"file": it.file, "as": it.what} for it in declared.taken],
        "plated": [{"file": it.file, "from": it.first, "to": it.last} for it in declared.drilled],
        "ties": [text.split("=") for text in declared.ties],
        "waivers": [*map(waiver_values, declared.waivers)],
    }
    more: Dict[str, Any] = {"netlist": declared.netlist} if declared.netlist else {}
    if declared.has_no_drills:
        more["no_drills"] = True
    return {"boardnet": FORM, **{key: its for key, its in rows.items() if its}, **more}


def file_text(declared: Declared) -> str:
    return indented_json.indented(values(declared)) + "\n"
