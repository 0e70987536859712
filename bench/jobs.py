# The jobs of the growth tables, as job blocks. All are corners of a cube: a network over them never needs more types than the cube
# has corners, so none is refused for want of room.
import random
import struct


def block(rows, weights, epsilon):
    n, m = len(rows), len(weights)
    head = struct.pack("<6H", n, m, epsilon, 12, 12 + 2 * m, 12 + 2 * m + n * m)
    return head + struct.pack("<%dH" % m, *weights) + b"".join(rows)


# A corner's bits laid over m columns: column c shows bit places[c].
def row(corner, places):
    return bytes(65 + (corner >> p & 1) * 2 for p in places)


# All 2^k corners at the largest epsilon: every two types are linked, and no median vector is new.
def all_linked(k, m):
    places = [c % k for c in range(m)]
    return block([row(corner, places) for corner in range(2**k)], [1] * m, 65535)


# So many of the 128 corners of a 7-cube, drawn at random, with random weights, at epsilon 0.
def drawn(n, m, seed=1):
    draw = random.Random(seed)
    places = [c % 7 for c in range(m)]
    draw.shuffle(places)
    weights = [draw.randint(1, 1000) for _ in places]
    return block([row(corner, places) for corner in draw.sample(range(128), n)], weights, 0)
