#!/usr/bin/env python3
"""Writes what crates/drain_cases replays: the lines `L E B W` (its stdin) and their answers (its stdout).

    python3 vectors/drain.py ORACLE

ORACLE is the original Rust (src/sender/ as it is) behind a program that reads one call a line and writes one answer a line.
For each admitted line a sender is set up with the window W and one session, an object of L bytes at the start of the store
is added, to be sent once, and an FDT is published. The FDT session runs until it has nothing, and then the file session,
whose packets are the answer.

The answer `refused` is the scope paper's rule and not the Rust's, whose limits are others.
"""
import pathlib
import random
import subprocess
import sys

CASES = pathlib.Path(__file__).resolve().parent.parent / "crates" / "drain_cases"
HOUR = 3600 * 10**9
NEVER = 2**64 - 1


def whole(rng):
    """One short of, at and one above a number of whole symbols."""
    for e in (1, 2, 3, 5):
        for k in (1, 2, 4, 7):
            for d in (-1, 0, 1):
                yield k * e + d, e, rng.randint(1, 4), rng.randint(1, 4)


def windows(rng):
    """Each window with fewer blocks, as many, and more; the last symbol is short or whole."""
    for w in range(1, 17):
        for blocks in (w - 1, w, w + rng.randint(1, 4)):
            if 0 < blocks:
                e, b = rng.randint(1, 9), rng.randint(1, 3)
                symbols = rng.randint((blocks - 1) * b + 1, blocks * b)
                yield symbols * e - rng.randrange(e), e, b, w


def anything(rng):
    for _ in range(30):
        yield rng.randrange(200), rng.choice((2, 3, 5, 7, 50, 300)), rng.choice((1, 2, 3, 4, 5, 7, 100)), rng.randint(1, 16)


def admitted():
    rng = random.Random(5775)
    yield from [(10, 2, 2, 2), (10, 2, 2, 3)]
    # an empty object; one symbol, whole or short; a block as large as the object, one smaller, or larger
    yield from [(0, 1, 1, 1), (0, 4, 2, 3), (0, 65535, 65535, 16), (1, 1, 1, 1), (4, 4, 2, 1), (65535, 65535, 65535, 16)]
    yield from [(3, 7, 2, 2), (1, 1400, 64, 16), (1, 65535, 1, 2), (25, 3, 8, 4), (25, 3, 9, 4), (25, 3, 10, 4), (25, 3, 65535, 1)]
    yield from whole(rng)
    yield from windows(rng)
    # unequal blocks
    yield from [(11, 1, 3, 1), (11, 1, 3, 2), (11, 1, 3, 3), (11, 1, 3, 4), (11, 1, 3, 16), (22, 2, 2, 16), (23, 3, 7, 2), (199, 1, 67, 3)]
    # longer ones, and starts that pass 16 bits
    yield from [(300, 1, 7, 16), (1000, 3, 10, 5), (401, 1, 1, 16), (200000, 1400, 10, 8), (262144, 1024, 64, 4), (5 * 65535 - 1, 65535, 2, 3)]
    yield from anything(rng)


def refused():
    yield from ["10 0 2 2", "10 2 0 2", "10 2 2 0", "10 2 2 17", "10 65536 2 2", "10 2 65536 2", "0 0 1 1", "0 1 0 1", "0 1 1 0"]
    # too many blocks
    yield from ["65536 1 1 1", "131071 1 2 4", f"{65535 * 65535 + 1} 65535 1 16", f"{2**40} 1 65535 16"]
    # too long; and numbers that would be admitted if they were cut to 16, 32 or 64 bits
    yield from [f"{2**40 + 1} 65535 65535 1", f"{2**64 - 1} 65535 65535 1", f"{2**64} 65535 65535 1", f"{2**64 + 10} 2 2 2"]
    yield from [f"10 {2**16 + 2} 2 2", f"10 2 {2**32 + 2} 2", f"10 2 2 {2**16 + 2}", f"10 2 2 {2**64 + 2}"]
    # not four numbers
    yield from ["", " \t ", "10", "10 2", "10 2 2", "10 2 2 2 2", "10 2 2 2 x", "drain 10 2 2 2", "ten 2 2 2", "10 2 2 w"]
    yield from ["0x0a 2 2 2", "-10 2 2 2", "10 +2 2 2", "10 2 2 2.0", "10,2,2,2", "10 2 2 2,"]


def packets(oracle, l, e, b, w):
    """The Rust's answer to an admitted line."""
    script = [
        f"setup {e} {b} {w} 1 0 16 1 0 {HOUR} delay {NEVER} {l} 2",
        f"add 0 0 {l} {e} {b} 1 none 0 none 0 - 0 -",
        "publish 0 0 1",
    ]
    script += ["runfdt 0 1 1"] * 2 + ["run 0 0"] * (max(1, -(-l // e)) + 1)
    answers = subprocess.run([oracle], input="\n".join(script) + "\n", capture_output=True, text=True, check=True).stdout.splitlines()
    assert answers[:3] == ["ok", "toi 1", "ok"], answers
    assert answers[3].startswith("packet fdt ") and answers[4] == "nothing taken 0", answers
    sent = answers[5:]
    assert sent.index("nothing") == len(sent) - 1, answers
    for line in sent[:-1]:
        _, kind, _, _, block, symbol, close, length, symbols, size, start, _ = line.split()
        assert kind == "obj" and int(length) == l, line
        # an empty payload has no place of its own: the object's start
        yield " ".join((block, symbol, symbols, start.replace("-", "0"), size, close))


def main():
    cases = [("%d %d %d %d" % n, list(packets(sys.argv[1], *n))) for n in admitted()]
    cases += [(line, ["refused"]) for line in refused()]
    # zeros in front, and other blanks
    cases += [(line, list(packets(sys.argv[1], 10, 2, 2, 2))) for line in ("010 0002 2 02", "\t10   2\t2 2 ", "10 2 2 2\r")]
    (CASES / "stdin").write_bytes("".join(line + "\n" for line, _ in cases).encode())
    (CASES / "stdout").write_bytes("".join(line + "\n" for _, answer in cases for line in answer).encode())


if __name__ == "__main__":
    main()
