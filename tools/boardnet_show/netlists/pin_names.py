"""Where a netlist and the copper's own names tell different things of one pin.

Tools cut and respell names for a netlist's 14 columns, so names are not compared by their letters: each name of the
netlist is paired with the label that most of its pins have, and a pin is told where its two names are not a pair. Where
names of several pins are a pair and do not look alike, that is told too.
"""
from collections import Counter
from typing import Callable, Dict, Iterator, List, Sequence, Set, Tuple, TypeVar

from boardnet_show.base.wording import counted, spoken
from boardnet_show.formats import ipc356
from boardnet_show.intake.package import Package

from .whole_names import Pin, cut

FEW = 6
# The names of each pin, and the names that are a pair, with how many pins have both.
Names = Dict[Pin, Set[str]]
Pairs = Dict[str, Tuple[str, int]]
Item = TypeVar("Item")


def pins_of(package: Package, name: str) -> Names:
    """The names of each pin in a netlist."""
    found: Names = {}
    for record in ipc356.records(package.read(name)):
        if record.pin:
            found.setdefault((record.component, record.pin), set()).add(record.name)
    return found


def whole_names(package: Package, name: str, pins: Names) -> Names:
    """The same with aliases as what they stand for."""
    whole = ipc356.aliases(package.read(name))
    return {pin: {whole.get(each) or each for each in its} for pin, its in pins.items()}


def alone(pins: Names) -> Set[str]:
    """N/C, and the names that one of these pins alone has: it may be named otherwise."""
    counts = Counter(name for names in pins.values() for name in names)
    return {name for name, count in counts.items() if count == 1} | {ipc356.NO_NET}


def pairs(theirs: Names, ours: Names) -> Pairs:
    """Pairs of names of these pins, one to one, with how many pins share them: the most first, of two such pairs one of
    equal letters."""
    counts = Counter((a, b) for pin in theirs for a in theirs[pin] for b in ours[pin] if ipc356.NO_NET not in (a, b))
    taken: Set[str] = set()
    pair: Pairs = {}
    by_count = sorted(counts.items(), key=lambda row: (-row[1], row[0][0].upper() != row[0][1].upper(), row[0]))
    for (a, b), count in by_count:
        if a not in pair and b not in taken:
            pair[a] = b, count
            taken.add(b)
    return pair


def spelled(name: str) -> str:
    """The letters and digits of a name."""
    return "".join(c for c in name.upper() if c.isalnum())


def is_respelled(a: str, b: str) -> bool:
    """Whether a netlist's name is the other one cut or written with other signs."""
    a, b = spelled(a), spelled(b)
    return a == b or len(a) >= 4 and (b.startswith(a) or b.endswith(a))


def listed(some: Sequence[Item], said: Callable[[Item], str]) -> str:
    more = [f"{len(some) - FEW} more"] if len(some) > FEW else []
    words: str = spoken([said(it) for it in some[:FEW]] + more, FEW + 1)
    return words


def pin_word(pin: Pin) -> str:
    return f"{pin[0]} pin {pin[1]}"


def differences(package: Package) -> List[str]:
    """Sentences on pins and names that only one has or that differ, as notes; one where there is none."""
    try:
        pins = pins_of(package, package.theirs)
    except OSError:
        return [f"the netlist {package.theirs} cannot be read, so the copper's names are compared with nothing"]
    theirs = whole_names(package, package.theirs, pins)
    ours = whole_names(package, package.own, pins_of(package, package.own))
    # Where columns cut a pin, its whole name stands in our comments alone.
    short = {cut(pin): pin for pin in ours}
    theirs = {short.get(pin, pin): names for pin, names in theirs.items()}
    both = theirs.keys() & ours.keys()
    theirs_of, ours_of = ({pin: its[pin] for pin in both} for its in (theirs, ours))
    pair = pairs(theirs_of, ours_of)
    wrong = [*by_pin(theirs_of, ours_of, pair), *by_name(pair), *missing(theirs, ours)]
    told = [f"the netlist {package.theirs} says otherwise: {words}" for words in wrong]
    return told or [f"the netlist {package.theirs} says the same of all {counted(len(both), 'pin')}"]


def by_pin(theirs: Names, ours: Names, pair: Pairs) -> Iterator[str]:
    """The pins whose names are no pair, and of which at least one has the name of another pin."""
    some, others = alone(theirs), alone(ours)

    def is_same(pin: Pin) -> bool:
        paired = {pair[name][0] if name in pair else None for name in theirs[pin]} == ours[pin]
        return paired or theirs[pin] <= some and ours[pin] <= others

    wrong = sorted(pin for pin in theirs if not is_same(pin))
    if wrong:
        yield listed(
            wrong,
            lambda pin: f"{pin_word(pin)} is of {spoken(sorted(theirs[pin]))} there "
            f"and of {spoken(sorted(ours[pin]))} by the copper's names",
        )


def by_name(pair: Pairs) -> Iterator[str]:
    """Names of several pins that do not look like each other."""
    other = sorted((a, b) for a, (b, count) in pair.items() if count > 1 and not is_respelled(a, b))
    if other:
        yield listed(other, lambda both: f"what is {both[0]} there is {both[1]} by the copper's names")


def missing(theirs: Names, ours: Names) -> Iterator[str]:
    for words, lost in (("has no record of", ours.keys() - theirs.keys()), ("alone has", theirs.keys() - ours.keys())):
        if lost:
            yield f"it {words} {listed(sorted(lost), pin_word)}"
