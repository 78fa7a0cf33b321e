"""The chain of causes of a place, as the page's chain.js has it: events, each once, with the stores of each that count."""
import bisect

MOST_CAUSES = 1000
PSW = "p"


class Cause:
    """An event of a chain: its stores, the stores of each event that it was made by, and what is not followed."""

    def __init__(self, moment):
        self.moment, self.depth, self.layer = moment, None, 0
        self.stores, self.below, self.from_start = set(), {}, set()
        self.is_of_psw = False


class Chains:
    """The chains of a trace."""

    def __init__(self, trace):
        self.trace = trace
        self.places, self.sources = list(trace.places), list(trace.sources)
        self.moments, self.stores = {}, {}
        for moment in range(trace.moments):
            for store in range(trace.begins[moment], trace.begins[moment + 1]):
                place = self.places[trace.place[store]]
                self.moments.setdefault(place, []).append(moment)
                self.stores.setdefault(place, []).append(store)

    def last(self, place, moment):
        """The last store into a place at or before a moment, with its moment."""
        moments = self.moments.get(place, [])
        at = bisect.bisect_right(moments, moment)
        return (self.stores[place][at - 1], moments[at - 1]) if at else None

    def made_of(self, store):
        """The places that a store was made of."""
        for word in self.sources[self.trace.source[store]].split():
            first, _, last = word.partition("-")
            if last:
                yield from (f"s{at:06X}" for at in range(int(first[1:], 16), int(last, 16) + 1))
            else:
                yield word

    def chain(self, place, moment):
        """The causes of a place after a moment, from later to earlier ones, and whether there are more."""
        root = Cause(moment + 1)
        causes, pending = {}, []
        self.want(place, moment, root, causes, pending)
        is_cut = False
        while pending:
            cause = causes[pending.pop()]
            if len(causes) > MOST_CAUSES:
                is_cut = True
                del causes[cause.moment]
                continue
            for store in cause.stores:
                for source in self.made_of(store):
                    self.want(source, cause.moment - 1, cause, causes, pending)
        measure(root, causes)
        return sorted(causes.values(), key=lambda cause: -cause.moment), is_cut

    def want(self, place, moment, above, causes, pending):
        if place == PSW and above.stores:
            above.is_of_psw = True
            return
        found = self.last(place, moment)
        if found is None:
            above.from_start.add(place)
            return
        store, at = found
        if at not in causes:
            causes[at] = Cause(at)
            bisect.insort(pending, at)
        causes[at].stores.add(store)
        above.below.setdefault(at, set()).add(store)


def measure(root, causes):
    """Notes how many events each cause is away from the root."""
    line = [causes[moment] for moment in root.below]
    for cause in line:
        cause.depth = 0
    for cause in line:
        for below in (causes[moment] for moment in cause.below if moment in causes):
            if below.depth is None:
                below.depth = cause.depth + 1
                line.append(below)


def layered(causes, depth):
    """The causes up to a depth, each in a layer below all that it made."""
    shown = {cause.moment: cause for cause in causes if cause.depth <= depth}
    for cause in shown.values():
        for moment in cause.below:
            if moment in shown:
                shown[moment].layer = max(shown[moment].layer, cause.layer + 1)
    return list(shown.values())


def columns(causes):
    """The causes of each layer from left to right: each stands as near as it can below what it made, a later event before an
    earlier one."""
    layers = [[] for _ in range(max(cause.layer for cause in causes) + 1)]
    for cause in causes:
        layers[cause.layer].append(cause)
    above = {}
    for layer in layers:
        places = {cause.moment: above.get(cause.moment, [0]) for cause in layer}
        layer.sort(key=lambda cause: (sum(places[cause.moment]) / len(places[cause.moment]), -cause.moment))
        for column, cause in enumerate(layer):
            for moment in cause.below:
                above.setdefault(moment, []).append(column)
    return layers
