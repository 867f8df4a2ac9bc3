"""Record commands for crates/desk_cases, with their answers: vectors/desk.py stores both.

The answers come from the layout alone: each field as a string of bits, one behind the other. No other program is asked.
"""
import random

WIDTHS = (1, 1, 20, 64, 16, 16, 16, 48, 16)  # FDT, close, FDT id, TOI, block, symbol, length, transfer length, count
TYPES = (1, 1, 32, 64, 32, 32, 64, 64, 64)  # bits that the command's numbers may have
PADDING = 26
SIZE = 28
SHEET = (0, 0, 0, 1, 0, 0, 2, 10, 2)


def good(fields):
    fdt, _, fdt_id, toi, *_ = fields
    return all(v < 2**w for v, w in zip(fields, WIDTHS)) and (toi == 0 if fdt else toi != 0 and fdt_id == 0)


def packed(fields):
    bits = "".join(format(v, f"0{w}b") for v, w in zip(fields, WIDTHS)) + "0" * PADDING
    return bytes(int(bits[i : i + 8], 2) for i in range(0, len(bits), 8))


def unpacked(record):
    """The fields of a record, or nothing where it is refused."""
    if len(record) != SIZE:
        return None
    bits = "".join(format(b, "08b") for b in record)
    fields, at = [], 0
    for w in WIDTHS:
        fields.append(int(bits[at : at + w], 2))
        at += w
    return fields if "1" not in bits[at:] and good(fields) else None


def write(fields, room):
    command = "writerecord " + " ".join(map(str, [*fields, room]))
    if room > 64 or any(v >= 2**w for v, w in zip(fields, TYPES)):
        return command, "error"
    if room < SIZE or not good(fields):
        return command, "refused 9"
    return command, "record " + packed(fields).hex() + "aa" * (room - SIZE)


def read(record):
    fields = unpacked(record)
    command = "readrecord " + (record.hex() or "-")
    return command, "refused 9" if fields is None else "fields " + " ".join(map(str, fields))


def drawn(rng):
    """A record that can be written; small and large values are as likely."""
    fdt = rng.randrange(2)
    some = [rng.getrandbits(rng.randint(0, w)) for w in WIDTHS]
    some[0] = fdt
    some[3] = 0 if fdt else max(1, some[3])
    some[2] = some[2] if fdt else 0
    return tuple(some)


def edges():
    """Each field at its largest number, and one more; each field alone; the numbers that the FDT flag settles."""
    for fdt in (0, 1):
        base = [fdt, 0, 0, 1 - fdt, 0, 0, 0, 0, 0]
        yield tuple(base)
        for i, w in enumerate(WIDTHS):
            for v in (0, 1, 2**w - 1, 2**w, 2 ** TYPES[i] - 1, 2 ** TYPES[i]):
                yield tuple(base[:i] + [v] + base[i + 1 :])
    yield (1, 1, 2**20 - 1, 0, 2**16 - 1, 2**16 - 1, 2**16 - 1, 2**48 - 1, 2**16 - 1)
    yield (0, 1, 0, 2**64 - 1, 2**16 - 1, 2**16 - 1, 2**16 - 1, 2**48 - 1, 2**16 - 1)


def flipped(record):
    for i in range(8 * len(record)):
        yield bytes(b ^ (128 >> i % 8 if i // 8 == j else 0) for j, b in enumerate(record))


def cases():
    rng = random.Random(2828)
    yield "writerecord 0 0 0 1 0 0 2 10 2 28", "record " + packed(SHEET).hex()
    yield read(packed(SHEET))
    for fields in edges():
        yield write(fields, 28)
        if good(fields):
            yield read(packed(fields))
    for room in range(0, 68):
        yield write(SHEET, room)
        yield write(drawn(rng), room)
        yield write((0, 0, 0, 0, 0, 0, 2, 10, 2), room)
    for _ in range(600):
        fields = drawn(rng)
        yield write(fields, rng.randint(28, 64))
        yield read(packed(fields))
    for fields in [SHEET] + [drawn(rng) for _ in range(7)]:
        for record in flipped(packed(fields)):
            yield read(record)
        for n in range(41):
            yield read((packed(fields) + bytes(rng.choices((0, 1, 170, 255), k=12)))[:n])
    for _ in range(300):
        yield read(rng.randbytes(SIZE))
    yield from unreadable()


def unreadable():
    """Lines that are no command: a word too few or too many, a flag that is none, a number that is none, half a byte."""
    line = "writerecord 0 0 0 1 0 0 2 10 2 28"
    for bad in ("writerecord", line[:-3], line + " 0", line.replace(" 10 ", " ten "), line.replace(" 10 ", " -1 ")):
        yield bad, "error"
    for bad in ("writerecord 2 0 0 1 0 0 2 10 2 28", "writerecord 0 2 0 1 0 0 2 10 2 28", "writerecord 0 0 0 1 0 0 2 10 2 65"):
        yield bad, "error"
    for bad in ("readrecord", "readrecord 0", "readrecord 0g", "readrecord 00 00", "readrecord --", "readrecord -0", "readrecord 0x00"):
        yield bad, "error"
