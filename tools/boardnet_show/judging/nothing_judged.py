"""What a yes says nothing about: boards on which no two test points could contradict one another, and pins without
net that are joined."""
from boardnet_show.formats.ipc356 import NO_NET

from boardnet_show.base.facts import UnnamedJoined

FEW = 4
BECAUSE = ", so no two of them could contradict one another, and this yes says nothing about the board"
NO_POINTS = "the netlist has no test point (no 317 and no 327 record), so this yes says nothing about the board"


def why_nothing(report):
    """Why no two points of a report could contradict one another, or nothing: two of one name could be parted, two
    of others joined."""
    names = {report.names[name] for _, _, name, _ in report.points}
    if not report.points:
        return NO_POINTS
    if names == {NO_NET}:
        return f"all test points ({len(report.points)}) are without net ({NO_NET}){BECAUSE}"
    if len(report.points) == 1:
        return f"there is one test point alone, of {names.pop()}{BECAUSE}"
    return ""


def joined_pins(board):
    """Nets with several records without net, as a list of their first points."""
    for net, points in sorted(board.points_of.items()):
        firsts, pins = {}, set()
        for point in points:
            record = board.record(point)
            pin = (record.component, record.pin) if record and record.pin else None
            if net >= 0 and board.name(board.name_of(point)) == NO_NET and (pin is None or pin not in pins):
                pins.add(pin)
                firsts.setdefault(board.report.points[point][0], point)
        if len(firsts) > 1:
            yield list(firsts.values())


def unnamed_notes(board):
    """A note on records without net that are on one net, with their places."""
    found = list(joined_pins(board))
    return [UnnamedJoined(tuple(map(board.points_at, found[:FEW])), max(0, len(found) - FEW))] if found else []
