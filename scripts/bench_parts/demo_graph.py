"""Writes the graph of `gm demo N` for the number N: a line for each node, and 4 N edges with their lengths."""
import sys

nodes = int(sys.argv[1])
held = nodes


def draw():
    """The upper 31 bits of the next number of a linear congruential generator that begins at N."""
    global held
    held = (held * 6364136223846793005 + 1442695040888963407) % 2**64
    return held >> 33


out = sys.stdout
for node in range(nodes):
    out.write(f"v {node}\n")
for _ in range(4 * nodes):
    start, end, length = draw() % nodes, draw() % nodes, draw() % 100 + 1
    out.write(f"{start} {end} {length}\n")
