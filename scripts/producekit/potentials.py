"""The longest ways: least potentials of places and regions."""
from __future__ import annotations

from collections.abc import Sequence
from dataclasses import dataclass

from .regions import Edge


@dataclass(frozen=True)
class Flow:
    """Places with edges between them, each place before those that follow it without a further turn; and the regions."""

    order: list[int]
    edges: Sequence[Sequence[Edge]]
    heads: list[int]
    bounds: list[int]


@dataclass(frozen=True)
class Potentials:
    """The most cycles from each place to the end of its turn or its task; and those of all turns of a region, with what follows."""

    places: list[int]
    regions: list[int]


def least_potentials(flow: Flow, costs: list[list[int]], prices: list[list[int]]) -> Potentials:
    """The least potentials. Of each place the costs of its edges, or the one to the end; and the prices of its edges."""
    places = [0] * len(flow.edges)
    regions, behind = [0] * len(flow.heads), [0] * len(flow.heads)
    headed = {head: region for region, head in enumerate(flow.heads)}
    for u in reversed(flow.order):
        most = costs[u][0]
        for edge, cost, price in zip(flow.edges[u], costs[u], prices[u]):
            rest = price
            if not edge.back:
                rest += places[edge.target] if edge.enters is None else regions[edge.enters]
            if edge.leaves is None:
                cost += rest
            elif rest > behind[edge.leaves]:
                behind[edge.leaves] = rest
            if cost > most:
                most = cost
        places[u] = most
        if u in headed:
            region = headed[u]
            regions[region] = flow.bounds[region] * most + behind[region]
    return Potentials(places, regions)
