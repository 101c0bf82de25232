"""Reads a report of version 2 (docs/FORMATS.md, "The report")."""
from array import array
from functools import lru_cache
from itertools import islice


class BadReport(Exception):
    """A text that is no report."""


class Report:
    """The lists of a report. Nets, pieces, points and names count from 0, records and layers from 1, as they do there.

    `points` are (record, layer, name, net), with net -1 for none; `spots` are (x, y) in u, `sources` (file, command,
    copy, top, bottom).
    """

    def __init__(self, text):
        # What the netlist has in the place of whole names that the copper's labels say.
        self.short_names = {}
        self.rows = iter(text.decode("ascii", "replace").split("\n"))
        try:
            if next(self.rows) != "boardnet 2":
                raise ValueError
            self.read()
        except (ValueError, IndexError, KeyError, StopIteration):
            raise BadReport("a line of the report is missing or broken") from None

    def read(self):
        self.pieces = self.count("pieces")
        self.nets = self.count("nets")
        self.net_of, self.parent = nets_of(tuple(islice(self.rows, self.nets)), self.pieces, self.nets)
        self.names = [next(self.rows).split(" ", 2)[2] for _ in range(self.count("names"))]
        _, record, layer, name, net = columns(*self.rows_of("points"), "point", 5)
        self.points = [
            *zip(map(int, record), map(int, layer), map(int, name), (-1 if it == "-" else int(it) for it in net))
        ]
        self.opens = [self.numbers("open") for _ in range(self.count("opens"))]
        self.shorts = [self.short() for _ in range(self.count("shorts"))]
        self.bare = [self.numbers("bare")[0] for _ in range(self.count("missing"))]
        self.spots, self.sources = numbered(*self.rows_of("spots"), "spot", 3), numbered(
            *self.rows_of("sources"), "source", 6
        )
        if len(self.sources) != self.pieces or len(self.spots) != len(self.points):
            raise ValueError
        self.agrees = {"agrees": True, "differs": False}[next(self.rows)]

    def numbers(self, head):
        parts = next(self.rows).split(" ")
        if parts[0] != head:
            raise ValueError
        return [int(part) for part in parts[1:]]

    def count(self, head):
        (count,) = self.numbers(head)
        return count

    def rows_of(self, counted):
        """How many rows of a table there are to be, and they in one text."""
        count = self.count(counted)
        rows = [*islice(self.rows, count)]
        if len(rows) != count:
            raise ValueError
        return count, " ".join(rows)

    def short(self):
        net, count = self.numbers("short")
        branches = [self.numbers("branch") for _ in range(count)]
        return net, [(name, point, pieces) for name, point, *pieces in branches]


# What follows is kept for the reports that were read last: copper that is judged anew with another netlist has the same
# nets and sources.


@lru_cache(maxsize=2)
def nets_of(rows, pieces, nets):
    """Net and parent of each piece, by the rows of the nets."""
    net_of, parents = array("l", [-1]) * pieces, array("l", [-1]) * pieces
    if len(rows) != nets:
        raise ValueError
    for row in rows:
        _, number, first, *twigs = row.split(" ")
        number, its = int(number), [*map(int, ":".join(twigs).split(":"))] if twigs else []
        if ":" in first or len(its) != 2 * len(twigs):  # the one without a parent is not the first
            parts = [(twig if ":" in twig else f"{twig}:-1").split(":") for twig in [first, *twigs]]
            its = [int(part) for piece, parent in parts for part in (piece, parent)]
        else:
            net_of[int(first)] = number
        for piece, parent in zip(its[::2], its[1::2]):
            net_of[piece], parents[piece] = number, parent
    return net_of, parents


def columns(count, rows, head, width):
    """The columns of rows that all have so many words behind their head, without the head."""
    parts = rows.split(" ") if count else []
    found = [parts[k :: width + 1] for k in range(width + 1)]
    if len(parts) != count * (width + 1) or set(found[0]) - {head}:
        raise ValueError
    return found[1:]


@lru_cache(maxsize=4)
def numbered(count, rows, head, width):
    """The numbers of such rows but for the first, which counts them."""
    return [*zip(*(map(int, column) for column in columns(count, rows, head, width)[1:]))]
