#!/usr/bin/env python3
"""Compares refusal 7 of the plan program with the smallest cut that NetworkX finds.

    python3 peer/cuts.py ROUNDS SEED

Needs NetworkX and a built plan program (./run builds it). It is no part of ./test.
"""
import os
import random
import subprocess
import sys

import networkx

COST_LIMIT = 10**12
PROGRAM = os.path.join(os.path.dirname(os.path.abspath(__file__)), "..", "target", "bin", "plan")


def four_regular(rng, vertices):
    """The edges of a random multigraph without loops in which each vertex has degree 4."""
    while True:
        ends = [v for v in range(vertices) for _ in range(4)]
        rng.shuffle(ends)
        edges = [tuple(sorted(ends[i : i + 2])) for i in range(0, len(ends), 2)]
        if all(low < high for low, high in edges):
            return edges


def glued(rng, vertices):
    """Two such graphs with one edge of each exchanged, so that two edges cross."""
    half = vertices // 2
    left = four_regular(rng, half)
    right = [(a + half, b + half) for a, b in four_regular(rng, vertices - half)]
    (a, b), (c, d) = left.pop(), right.pop()
    return left + right + [(a, c), (b, d)]


def text(rng, vertices, edges):
    """The network text, with a random reserved edge and random costs."""
    lines = ["01%04x%04x" % (vertices, rng.randrange(len(edges)))]
    for number, (low, high) in enumerate(edges):
        cost = rng.randint(-COST_LIMIT, COST_LIMIT) & 0xFFFFFFFFFFFFFFFF
        lines.append("02%04x%04x%04x%016x" % (number, low, high, cost))
    return "".join(line + "\n" for line in lines).encode()


def smallest_cut(vertices, edges):
    """How many edges the smallest cut has, parallels counted."""
    graph = networkx.Graph()
    graph.add_nodes_from(range(vertices))
    for low, high in edges:
        weight = graph.get_edge_data(low, high, {"weight": 0})["weight"]
        graph.add_edge(low, high, weight=weight + 1)
    if not networkx.is_connected(graph):
        return 0
    return networkx.stoer_wagner(graph)[0]


def main():
    rounds = int(sys.argv[1]) if len(sys.argv) > 1 else 500
    seed = int(sys.argv[2]) if len(sys.argv) > 2 else 1
    differences = refused = 0
    for number in range(seed, seed + rounds):
        rng = random.Random(number)
        vertices = rng.randint(4, 40)
        edges = rng.choice([four_regular, glued])(rng, vertices)
        output = subprocess.run([PROGRAM], input=text(rng, vertices, edges), capture_output=True, check=True).stdout
        small = smallest_cut(vertices, edges) < 4
        refused += small
        if (output == b"0f07\n") != small:
            differences += 1
            print("seed", number, "differs")
    print("%d rounds, %d of them with a small cut, %d differences" % (rounds, refused, differences))
    sys.exit(differences != 0)


main()
