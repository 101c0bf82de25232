"""What came of files, as it is printed: a line for each in which a reader differs, and totals."""
from collections import Counter
from typing import Iterator, List

from .compare import BETWEEN, CLOSE, DIFFER, SAME_IN, SAME_OUT, SETTLED, UNSEEN, Row

SQUARE_MILLIMETRE = 10**12
MOST_SHOWN = 600


def has_left(row: Row) -> bool:
    return any(it.parts for it in row.left)


def line_of(row: Row) -> str:
    """A file's line; nothing where all that read it read the same."""
    told = []
    for name, (it, *_) in row.differ.items():
        count = f"{row.counts[name][DIFFER]} of {row.places} places"
        told.append(f"{name} differs at {count}, as {it.place} um: boardnet {it.ours}, it {it.other}")
    told += [
        f"KLayout has {it.parts} parts otherwise, {it.area / SQUARE_MILLIMETRE:.6f} mm2, as at {it.boxes[0]} nm"
        for it in row.left
        if it.parts
    ]
    told += [f"ALL READERS DIFFER at {len(row.alone)} places"] if row.alone else []
    told += [f"not read by {name}: {row.said.get(name, '')[:100]}" for name in row.unread]
    told += [f"FAULT {row.fault}"] if row.fault else []
    if row.how == "refused":
        told.append(f"refused: {row.why}")
    return f"{row.file}: {row.how}; {'; '.join(told)}" if told else ""


def smaller_of(row: Row, name: str, data: bytes) -> str:
    """A smaller file that a reader still has otherwise."""
    text, it = data.decode("latin-1").replace("\n", " ").strip(), row.differ[name][0]
    told = text if len(text) <= MOST_SHOWN else f"{len(data)} bytes, the first of which are {text[:MOST_SHOWN]}"
    return f"  smaller than {row.file}, {name} at {it.place}, boardnet {it.ours}, it {it.other}: {told or 'none found'}"


def totals(rows: List[Row]) -> Iterator[str]:
    """Of the files of a kind: how they are taken, and what each reader has."""
    for kind in ("copper", "drill"):
        some = [row for row in rows if row.kind == kind]
        hows = Counter(row.how for row in some)
        if some:
            taken = ", ".join(f"{n} {how}" for how, n in hows.most_common())
            pieces, places = sum(row.pieces for row in some), sum(row.places for row in some)
            yield f"{kind}: {len(some)} files ({taken}), {pieces} pieces, {places} places"
        for name in dict.fromkeys(name for row in some for name in row.counts):
            yield "  " + of_reader(name, some)
        areas = [row for row in some if row.left]
        if areas:
            left = sum(it.area for row in areas for it in row.left) / SQUARE_MILLIMETRE
            yield f"  KLayout, whole areas: {len(areas)} files, otherwise {left:.6f} mm2 in {sum(map(has_left, areas))}"


def of_reader(name: str, rows: List[Row]) -> str:
    read = [row for row in rows if name in row.counts]
    count = sum((row.counts[name] for row in read), Counter())
    compared = count[SAME_IN] + count[SAME_OUT] + count[DIFFER]
    rest = ", ".join(f"{count[it]} {it}" for it in (SETTLED, CLOSE, BETWEEN, UNSEEN) if count[it])
    files = sum(name in row.differ for row in read)
    same = f"{count[SAME_IN]} copper, {count[SAME_OUT]} none"
    differ = f"{count[DIFFER]} differ in {files} files"
    return f"{name}: {len(read)} files, {compared} places compared ({same}), {differ}; {rest}"


def refusals(rows: List[Row]) -> str:
    return ", ".join(f"{n} {why}" for why, n in Counter(row.why for row in rows if row.how == "refused").most_common())
