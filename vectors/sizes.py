"""Calls for crates/desk_cases that need no sender: partitions, block lengths from a partition, block lengths from raw sizes.

vectors/desk.py gives them to the original Rust (src/common/partition.rs) and stores its answers.
"""
import random

TOP = 2**64 - 1
EDGES = [0, 1, 2, 3, 7, 65534, 65535, 65536, 2**16 + 1, 2**32 - 1, 2**32, 2**40 - 1, 2**40, 2**40 + 1,
         2**63 - 1, 2**63, 2**63 + 1, TOP - 1, TOP]


def number(rng):
    """Small, near a power of two, an edge, or anywhere."""
    kind = rng.randrange(5)
    if kind == 0:
        return rng.randrange(12)
    if kind == 1:
        return rng.randrange(2 ** rng.randint(1, 64))
    if kind == 2:
        return rng.choice(EDGES)
    return max(0, min(TOP, 2 ** rng.randint(0, 64) + rng.randint(-2, 2)))


def blocks(l, e, b):
    """How many blocks l bytes make."""
    if e == 0 or b == 0:
        return 0
    return -(-(-(-l // e)) // b)


def around(n):
    """Block numbers at and beside the ends of a partition, in 32 bits."""
    return sorted({k for k in (0, 1, n // 2, n - 2, n - 1, n, n + 1, 2**32 - 1) if 0 <= k < 2**32})


def calls():
    rng = random.Random(5052)
    lines = []
    # every small case, among them one short of and at each size
    for l in range(0, 14):
        for e in range(0, 5):
            for b in range(0, 4):
                lines.append(f"partition {l} {e} {b}")
    for l in range(0, 11):
        for e in (1, 2, 3):
            for b in (1, 2, 3):
                for k in around(blocks(l, e, b)):
                    lines.append(f"blocklength {l} {e} {b} {k}")
    # the limits of what is admitted, and one to each side
    for l in (65534, 65535, 65536, 2**40 - 1, 2**40, 2**40 + 1):
        for e in (1, 1400, 65534, 65535, 65536):
            for b in (1, 64, 65534, 65535, 65536):
                lines.append(f"partition {l} {e} {b}")
                for k in rng.sample(around(blocks(l, e, b)), 2):
                    lines.append(f"blocklength {l} {e} {b} {k}")
    # numbers near 2^63 and 2^64
    for l in (2**63 - 1, 2**63, TOP - 1, TOP):
        for e in (1, 2, 3, 2**32, 2**63, TOP):
            for b in (1, 2, 2**32, 2**63, TOP):
                lines.append(f"partition {l} {e} {b}")
                lines.append(f"blocklength {l} {e} {b} {rng.choice(around(blocks(l, e, b)))}")
    lines.append(f"blocklength {TOP} 2 {2**63} 0")
    for _ in range(400):
        lines.append("partition %d %d %d" % (number(rng), number(rng), number(rng)))
    for _ in range(500):
        l, e, b = number(rng), number(rng), number(rng)
        lines.append("blocklength %d %d %d %d" % (l, e, b, number(rng) % 2**32))
    # products, sums and offsets just below, at and past 64 bits
    for _ in range(300):
        large = rng.randint(1, 2**32)
        e = TOP // large + rng.choice((-1, 0, 0, 1))
        if e < 0 or TOP < e:
            continue
        small = rng.choice((large, large - 1, 0))
        lines.append(f"rawlength {large} {small} {rng.randrange(4)} {rng.choice((TOP, TOP - 1, number(rng)))} {e} {rng.randrange(4)}")
    for _ in range(300):
        large, e, nb_a_large, k = rng.randint(1, 99), rng.randint(1, 99), rng.randrange(5), rng.randrange(9)
        start = (min(k, nb_a_large) * large + max(0, k - nb_a_large) * (large - 1)) * e
        lines.append(f"rawlength {large} {large - 1} {nb_a_large} {max(0, start + rng.choice((-1, 0, 1, e, 99 * e)))} {e} {k}")
    for _ in range(700):
        lines.append("rawlength %d %d %d %d %d %d" % (*(number(rng) for _ in range(5)), number(rng) % 2**32))
    return lines
