"""What the reports on a lower and an upper board say together: what is certain, and what is undecided."""
from collections import defaultdict
from typing import Any, NamedTuple, Sequence

from boardnet_show.base import facts
from boardnet_show.formats.ipc356 import NO_NET

from .net_ties import nets_of


class BothFind(NamedTuple):
    """A finding of both boards, or of one alone: `what` is so, where, and the points or names in doubt."""

    kind: str
    is_sure: bool
    what: Any
    places: Sequence[facts.Place]
    points: Sequence[int]


class Joint:
    """Both reports of one board; they have the same test points and names. Names that are declared to be tied count
    as one."""

    def __init__(self, low, high, records, manifest, ties):
        self.low, self.high, self.records, self.manifest, self.ties = low, high, records, manifest, ties

    def agrees(self):
        """The premises of the law, for names of which tied ones are one."""
        return (
            not self.low.opens
            and not self.low.bare
            and not self.ties.shorts(self.high)
            and not self.ties.parted(self.low)
        )

    def findings(self):
        return [*self.opens(), *self.parted(), *self.shorts(), *self.missing()]

    def found(self, kind, what, points):
        return BothFind(kind, what.is_sure, what, self.places(points), list(points))

    # ---- points

    def spot(self, point):
        """x, y and layer."""
        return (*self.high.spots[point], self.high.points[point][1])

    def point_at(self, point):
        record, layer, *_ = self.high.points[point]
        told = self.records[record - 1] if record <= len(self.records) else None
        is_named = told and told.component and told.pin
        pin = facts.Pin(told.component, told.pin) if is_named else facts.Pin(record=record)
        return facts.PointAt(pin, self.manifest.layer_word(layer), self.high.spots[point])

    def points_at(self, points):
        return tuple(map(self.point_at, points))

    def named_points(self, points):
        return tuple(facts.NamedPoint(self.name(point), self.point_at(point)) for point in points)

    def places(self, points):
        return [*map(self.spot, points)]

    def name(self, point):
        return self.high.names[self.high.points[point][2]]

    # ---- opens: parts of a name

    def parts(self, report):
        """For each name its points by net, without those that have no copper."""
        parts = defaultdict(lambda: defaultdict(list))
        for number, (_, _, name, net) in enumerate(report.points):
            if net >= 0:
                parts[name][net].append(number)
        return parts

    def opens(self):
        for name, nets in sorted(self.parts(self.high).items()):
            if self.high.names[name] == NO_NET:
                continue
            parts = sorted(nets.values())
            if len(parts) > 1:
                firsts = [part[0] for part in parts]
                yield self.found("open", facts.InParts(self.high.names[name], self.points_at(firsts), True), firsts)
            for part in parts:
                yield from self.perhaps_open(self.high.names[name], part)

    def perhaps_open(self, name, part):
        """Points that the upper board joins and the lower one parts."""
        first = {}
        for point in part:
            if self.low.points[point][3] >= 0:
                first.setdefault(self.low.points[point][3], point)
        firsts = list(first.values())
        if len(firsts) > 1:
            yield self.found("open", facts.InParts(name, self.points_at(firsts), False), firsts)

    def parted(self):
        """Declared ties that the copper does not have, or perhaps not; those of a name without a point have no
        place."""
        above, firsts = nets_of(self.high), {}
        for point, (*_, net) in enumerate(self.high.points):
            firsts.setdefault(self.name(point), {}).setdefault(net, point)
        certain = self.ties.parted(self.high)
        for it in self.ties.parted(self.low):
            if any(name not in firsts for name in it.names):
                continue
            net = min(set.intersection(*(above.get(name, set()) for name in it.names)), default=None)
            points = [firsts[name].get(net, next(iter(firsts[name].values()))) for name in it.names]
            told = facts.TieParted(it.names, it.source, self.points_at(points), it in certain)
            yield self.found("open", told, points)

    # ---- shorts: names on one net; a point without a net is a name of its own

    def key(self, point):
        return point if self.name(point) == NO_NET else self.ties.all_of(self.name(point))

    def short_nets(self, report):
        """For each short net its names, each with its first point."""
        nets = {net: {} for net, _ in report.shorts}
        for point, (*_, net) in enumerate(report.points):
            if net in nets:
                nets[net].setdefault(self.key(point), point)
        return [nets[net] for net in sorted(nets) if len(nets[net]) > 1]

    def shorts(self):
        certain = self.short_nets(self.low)
        for names in certain:
            yield self.found("short", facts.NamesJoined(self.named_points(names.values()), True), names.values())
        for names in self.short_nets(self.high):
            groups = classes(names, certain)
            if len(groups) > 1 and any(isinstance(key, tuple) for key in names):
                firsts = [names[group[0]] for group in groups]
                yield self.found("short", facts.NamesJoined(self.named_points(firsts), False), firsts)

    # ---- test points without copper

    def missing(self):
        for point in self.high.bare:
            yield self.found("missing", facts.BareBelow(*self.named_points([point]), True), [point])
        for point in sorted(set(self.low.bare) - set(self.high.bare)):
            yield self.found("missing", facts.BareBelow(*self.named_points([point]), False), [point])


def classes(keys, joined):
    """Keys in groups: those that some of the given sets have together are in one."""
    group = {key: [key] for key in keys}
    for other in joined:
        within = [key for key in other if key in group]
        for key in within[1:]:
            one, two = group[within[0]], group[key]
            if one is not two:
                one += two
                for moved in two:
                    group[moved] = one
    return list({id(members): members for members in group.values()}.values())
