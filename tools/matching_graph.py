"""Minimum-weight matching of detection events: the graph of a model's errors, and decoders of shots on it.

Each error flips one or two detectors, and is an edge between them or to the boundary. Its weight is log((1 - p) / p). Of the sets
of errors that give the events of a shot, the likeliest has the least weight. PyMatching finds such a set, or networkx, on a graph
of the events alone.
"""
import heapq
from functools import lru_cache
from math import log

import numpy as np

# Weights are whole numbers, so that sums of them are exact: this many are 1.
UNIT = 1 << 20
CACHED_CLUSTERS = 1 << 16


class CannotExplain(Exception):
    """Events that no errors of the model give."""


class MatchingGraph:
    """Edges by (first, second) in `edges`: the probability, at most 1/2, and the observables as bits. The boundary is None.

    Nodes are the detectors that an error flips, by `node_of`. An error of more than 1/2 is taken to happen, unless its edge says
    that it doesn't: so what all of these flip is taken off each shot first, and is `usual_events` and `usual_observables`.
    """

    def __init__(self, symptoms):
        self.usual_events, self.usual_observables = set(), 0
        self.edges = {}
        detectors = sorted({detector for detectors, _ in symptoms for detector in detectors})
        self.node_of = {detector: node for node, detector in enumerate(detectors)}
        for (detectors, observables), probability in symptoms.items():
            self.add(tuple(self.node_of[detector] for detector in detectors), sum(1 << k for k in observables), probability)

    def add(self, nodes, observables, probability):
        if probability > 0.5:
            self.usual_events ^= set(nodes)
            self.usual_observables ^= observables
            probability = 1 - probability
        if nodes and probability > 0:
            ends = nodes if len(nodes) == 2 else (nodes[0], None)
            self.edges[ends] = max(self.edges.get(ends, (0, 0)), (probability, observables))

    def weight(self, ends):
        probability = self.edges[ends][0]
        return round(UNIT * log((1 - probability) / probability))


def bits(number, count):
    return [number >> k & 1 for k in range(count)]


class ByPyMatching:
    """Decodes by PyMatching, whose graph has the same nodes and edges."""

    name = "pymatching"

    def __init__(self, graph, observables):
        import pymatching
        self.matching, self.observables = pymatching.Matching(), observables
        for (first, second), (probability, flipped) in graph.edges.items():
            how = {"fault_ids": {k for k, bit in enumerate(bits(flipped, observables)) if bit},
                   "weight": log((1 - probability) / probability), "error_probability": probability}
            if second is None:
                self.matching.add_boundary_edge(first, **how)
            else:
                self.matching.add_edge(first, second, **how)

    def decode(self, events):
        """A row of flipped observables for each row of events."""
        found = np.zeros((len(events), self.observables), np.uint8)
        if self.matching.num_detectors:
            told = self.matching.decode_batch(np.ascontiguousarray(events[:, :self.matching.num_detectors]))
            found[:, :told.shape[1]] = told
        return found


class ByNetworkx:
    """Decodes by the matching of networkx, on the events of a shot.

    Two events are worth matching with each other where that weighs less than matching both with the boundary; the difference is
    their gain. So the pairs of greatest gain together are those of the least weight, and all other events go to the boundary.
    Events that no chain of such pairs joins are matched apart.
    """

    name = "networkx"

    def __init__(self, graph, observables):
        import networkx
        self.networkx, self.observables = networkx, observables
        self.neighbours = [[] for _ in graph.node_of]
        to_boundary = []
        for (first, second), (_, flipped) in graph.edges.items():
            weight = graph.weight((first, second))
            if second is None:
                to_boundary.append((weight, first, flipped))
            else:
                self.neighbours[first].append((second, weight, flipped))
                self.neighbours[second].append((first, weight, flipped))
        # More than any path weighs: for nodes from which no path leads to the boundary.
        self.nowhere = 1 + sum(map(graph.weight, graph.edges))
        self.boundary = self.find_paths(to_boundary)
        self.farthest = max((weight for weight, _ in self.boundary.values()), default=0)
        self.find_gains = lru_cache(None)(self.find_gains)
        self.match_cluster = lru_cache(CACHED_CLUSTERS)(self.match_cluster)

    def find_paths(self, begins, most=None):
        """The least weight of a path to each node, and what its errors flip, from (weight, node, flipped); up to a weight."""
        found, queue = {}, list(begins)
        heapq.heapify(queue)
        while queue:
            weight, node, flipped = heapq.heappop(queue)
            if node in found or most is not None and weight >= most:
                continue
            found[node] = weight, flipped
            for other, more, flips in self.neighbours[node]:
                if other not in found:
                    heapq.heappush(queue, (weight + more, other, flipped ^ flips))
        return found

    def to_boundary(self, node):
        return self.boundary[node][0] if node in self.boundary else self.nowhere

    def find_gains(self, node):
        """The nodes worth matching with this one: by node, the gain and what the path flips."""
        own = self.to_boundary(node)
        paths = self.find_paths([(0, node, 0)], own + self.farthest)
        gains = {other: (own + self.to_boundary(other) - weight, flipped) for other, (weight, flipped) in paths.items()}
        return {other: gain for other, gain in gains.items() if gain[0] > 0 and other != node}

    def match_cluster(self, events):
        """What errors of the least weight flip that give these events."""
        graph, flipped, alone = self.networkx.Graph(), 0, set(events)
        for k, event in enumerate(events):
            gains = self.find_gains(event)
            graph.add_weighted_edges_from((event, other, gains[other][0]) for other in events[k + 1:] if other in gains)
        for first, second in self.networkx.max_weight_matching(graph) if len(events) > 2 else graph.edges:
            flipped ^= self.find_gains(first)[second][1]
            alone -= {first, second}
        for event in alone:
            if event not in self.boundary:
                raise CannotExplain
            flipped ^= self.boundary[event][1]
        return flipped

    def clusters(self, events):
        """The events in groups, which pairs with a gain join."""
        left = set(events)
        while left:
            first = min(left)
            left.remove(first)
            cluster, at = [first], 0
            while at < len(cluster):
                joined = [other for other in self.find_gains(cluster[at]) if other in left]
                left.difference_update(joined)
                cluster += joined
                at += 1
            yield tuple(sorted(cluster))

    def decode(self, events):
        found = np.zeros((len(events), self.observables), np.uint8)
        shots, nodes = np.nonzero(events)
        begins = np.flatnonzero(np.diff(shots, prepend=-1))
        for shot, part in zip(shots[begins], np.split(nodes, begins[1:])):
            flipped = 0
            for cluster in self.clusters(part.tolist()):
                flipped ^= self.match_cluster(cluster)
            if flipped:
                found[shot] = bits(flipped, self.observables)
        return found


class Decoder:
    """Decodes shots of a model: rows of events of all its detectors, to rows of its observables."""

    def __init__(self, symptoms, observables, matcher):
        graph = MatchingGraph(symptoms)
        self.matcher = matcher(graph, observables)
        self.detectors = list(graph.node_of)
        self.usual_events = np.array([node in graph.usual_events for node in range(len(self.detectors))], np.uint8)
        self.usual_observables = np.array(bits(graph.usual_observables, observables), np.uint8)

    def decode(self, events):
        return self.matcher.decode(events[:, self.detectors] ^ self.usual_events) ^ self.usual_observables


def is_there(module):
    try:
        __import__(module)
    except ImportError:
        return False
    return True
