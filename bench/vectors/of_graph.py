"""Cases of xf_graph, by plain search over small graphs. An edge (source, reader) is spelt `source>reader`."""

import itertools
import random


def cycles_from(size, edges, first, length):
    """The cycles of a length from a vertex, each vertex reading from the next, in the order of their lists."""
    for others in itertools.permutations([v for v in range(size) if v != first], length - 1):
        cycle = [first, *others]
        if all((cycle[(at + 1) % length], cycle[at]) in edges for at in range(length)):
            yield cycle


def chosen_cycle(size, edges):
    """Through the least vertex on any cycle, the shortest, and among these the least as a list; or None."""
    for first in range(size):
        for length in range(1, size + 1):
            for cycle in cycles_from(size, edges, first, length):
                return cycle
    return None


def reached(edges, changed):
    seen = set(changed)
    while more := {reader for source, reader in edges if source in seen} - seen:
        seen |= more
    return sorted(seen)


def list_of(vertices):
    return "".join(f" {vertex}" for vertex in vertices)


def about(size, edges, changes):
    words = " ".join(f"{source}>{reader}" for source, reader in edges)
    cycle = chosen_cycle(size, set(edges))
    if cycle:
        yield ["order", str(size), words, "list", "cycle" + list_of(cycle)]
        return
    yield ["order", str(size), words, "set", "sorted forward" + list_of(range(size))]
    for changed in changes:
        yield ["pertinent", str(size), words, " ".join(map(str, changed)), "set", "reached forward" + list_of(reached(edges, changed))]


def drawn(round_, state):
    """The edges of a graph of four vertices, by the draws of a linear congruence."""
    state = (state * 1664525 + 1013904223) % 2**32
    thin = (state * 1664525 + 1013904223) % 2**32
    bits = (state >> 8) & ((thin >> 12) if round_ % 2 == 0 else 2**32 - 1) & 0xFFFF
    return state, [(s, r) for s in range(4) for r in range(4) if bits >> (s * 4 + r) & 1]


def cases():
    state = 20
    for round_ in range(400):
        state, edges = drawn(round_, state)
        yield from about(4, edges, [[changed] for changed in range(4)])
    draw = random.Random(17)
    for _ in range(160):
        size = draw.randint(1, 7)
        order = draw.sample(range(size), size)
        edges = [(draw.randrange(size), draw.randrange(size)) for _ in range(draw.randint(0, size * 2))]
        if draw.random() < 0.6:
            edges = [(s, r) for s, r in edges if order.index(s) < order.index(r)]
        changes = [[], [draw.randrange(size)], [draw.randrange(size) for _ in range(3)]]
        yield from about(size, edges, changes)
    for size in [10, 1000]:
        chain = " ".join(f"{v + 1}>{v}" for v in range(size - 1))
        yield ["order", str(size), chain, "list", "sorted" + list_of(reversed(range(size)))]
        yield ["pertinent", str(size), chain, str(size // 2), "list", "reached" + list_of(reversed(range(size // 2 + 1)))]
