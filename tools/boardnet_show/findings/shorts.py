"""The shorts of a report: which names one net joins, and where."""
from boardnet_show.base import facts, wording
from boardnet_show.formats.ipc356 import NO_NET

from . import least_cuts
from .finding import KNOWN, LABELLED, SHORT, SUGGESTED, Clue, Finding
from .meeting_places import Net

MOST_TOLD = 3


def findings(board):
    """Each short."""
    budget = least_cuts.Budget()
    for number, (net, branches) in board.ties.shorts(board.report):
        names = sides(board, branches)
        points = [point for _, point, _ in branches]
        numbers = [name for name, _, _ in branches]
        heading = wording.spoken(map("=".join, names), 3)
        joined = Net(board, net) if board.shapes else None
        meets = joined.meets(budget) if joined else []
        clues = [*meet_clues(board, joined, meets)] if meets else by_branch(board, branches)
        where = where_of(board, joined, meets) if meets else None
        told = facts.NamesMeet(names, tuple(board.named_point(point) for _, point, _ in branches), where)
        yield Finding(
            SHORT,
            number,
            heading,
            told,
            points,
            nets=[net],
            names=numbers,
            clues=clues,
            meets=meets,
            sides=joined.sides if joined else {},
            is_labelled=bool(joined and joined.is_labelled),
        )


def where_of(board, joined, meets):
    """Where the names of a short meet, as its head says it."""
    place = board.copper_at(meets[0].place, meets[0].layer)
    return facts.MeetingPlace(place, joined.count - 1, joined.is_labelled)


def sides(board, branches):
    """The names of a short, tied ones together."""
    found = {}
    for name, _, _ in branches:
        found.setdefault(board.side_of(name), []).append(board.name(name))
    return tuple(map(tuple, found.values()))


def tie_clues(board, joined, meets):
    """Which tie would declare what meets in one footprint, once for each two names."""
    told = {}
    for meet in meets:
        found = joined.footprint(meet)
        if found:
            names = [board.name(board.name_of(point)) for point in found[1:]]
            told.setdefault("=".join(names), (found[0], NO_NET in names))
    for names, (component, is_unnamed) in list(told.items())[:MOST_TOLD]:
        if not is_unnamed:
            yield Clue(SUGGESTED, facts.TieWouldDeclare(component, names))


def meet_clues(board, joined, meets):
    """A clue for each place, the first few."""
    if not joined.is_labelled and joined.labels:
        yield Clue(KNOWN, facts.AllLabelled(joined.labels[0]))
    why = LABELLED if joined.is_labelled else SUGGESTED
    yield from (Clue(why, meets_at(board, meet)) for meet in meets[:MOST_TOLD])
    if joined.count > MOST_TOLD:
        yield Clue(KNOWN, facts.MorePlaces(joined.count - MOST_TOLD))
    yield from tie_clues(board, joined, meets)


def meets_at(board, meet):
    first, second = map(board.source, meet.touch)
    between = tuple(dict.fromkeys(map(board.source, meet.between)))
    where = board.copper_at(meet.place, meet.layer)
    return facts.MeetsAt(meet.names, (first, second), between, len(meet.between), where)


def by_branch(board, branches):
    """Where the copper is not known, or was too much to look through: the paths of the report, piece by piece."""
    found = []
    for name, _, pieces in branches[1 : 1 + MOST_TOLD]:
        if len(pieces) > 1:
            found.append(Clue(KNOWN, facts.Reaches(board.name(name), tuple(map(board.source, pieces)))))
        step = label_step(board, pieces)
        if step:
            one, other = step
            labels = board.labels[one], board.labels[other]
            found.append(Clue(LABELLED, facts.LabelsChange((board.source(one), board.source(other)), labels)))
    return found


def label_step(board, pieces):
    """The first step of a path on which the labels change."""
    last = None
    for piece in pieces:
        if piece in board.labels:
            if last is not None and board.labels[last] != board.labels[piece]:
                return last, piece
            last = piece
    return None
