"""Test points of a name that copper joins, and in which parts another report has them."""
from collections import defaultdict
from typing import Dict, List, Sequence, Tuple

from boardnet_show.formats.report import Report


def joined(report: Report) -> Dict[Tuple[int, int], List[int]]:
    """The test points with copper by name and net; each without a net name by itself."""
    found: Dict[Tuple[int, int], List[int]] = defaultdict(list)
    for point, (_, _, name, net) in enumerate(report.points):
        if net >= 0:
            found[name, net].append(point)
    return found


def parts_of(points: Sequence[int], report: Report) -> Tuple[Tuple[int, ...], ...]:
    """Points by their nets in a report; each one without copper is a part of its own."""
    parts: Dict[Tuple[int, int], List[int]] = {}
    for point in points:
        net = report.points[point][3]
        parts.setdefault((net, point if net < 0 else -1), []).append(point)
    return tuple(tuple(its) for _, its in sorted(parts.items(), key=lambda part: (part[0][0] < 0, part[1][0])))
