#!/usr/bin/env python3
"""Makes day files of other kinds than make_day.rs does, to measure a replay on. In none of them a message is refused.

    other_days.py falling DAY OUT     DAY with its order references turned round, so that they fall
    other_days.py shuffled DAY OUT    DAY with its order references in no order
    other_days.py live OUT COUNT      one stock with COUNT orders that are added, by rising references, and stay
    other_days.py CHOICE OUT COUNT    one stock with COUNT orders that are added, with references in this order, and then
                                      deleted in the order in which they came

CHOICE is rising, or one of the eleven orders of CHOICES that are chosen to be slow.
"""
import random, struct, sys

# The kinds of message that name an order at offset 11; a replacement names its new one at offset 19.
ORDERS = b"AFECXDU"
WORD = (1 << 64) - 1
MIX = 0x9E3779B97F4A7C15


def bits_reversed(at, count):
    width = max(1, (count - 1).bit_length())
    return int(f"{at:0{width}b}"[::-1], 2)


def drawn(count):
    return random.Random(1).sample(range(1, 4 * count), count)


# The references of COUNT orders, in the order in which they come.
CHOICES = {
    "rising": lambda n: [1 + at for at in range(n)],
    "falling": lambda n: [n - at for at in range(n)],
    "inwards": lambda n: [1 + at // 2 if at % 2 == 0 else n - at // 2 for at in range(n)],
    "outwards": lambda n: [1 + at // 2 if at % 2 == 0 else n - at // 2 for at in reversed(range(n))],
    "bit-reversed": lambda n: [1 + bits_reversed(at, n) for at in range(n)],
    "multiplied": lambda n: [at * MIX & WORD for at in range(n)],
    "far-apart": lambda n: [1 + at << 32 for at in range(n)],
    "far-falling": lambda n: [n - at << 32 for at in range(n)],
    "pairs-swapped": lambda n: [1 + (at ^ 1) for at in range(n)],
    "blocks-falling": lambda n: [1 + (at ^ 63) for at in range(n)],
    "greatest-first": lambda n: [WORD, *range(1, n)],
    "drawn": drawn,
}


def entry(payload):
    return struct.pack(">H", len(payload)) + payload


def head(kind, time):
    return struct.pack(">cHH", kind, 1, 0) + time.to_bytes(6, "big")


def directory():
    return entry(head(b"R", 1) + b"AAPL    QN" + struct.pack(">I", 100) + b"NCZ PNN1N" + struct.pack(">I", 0) + b"N")


def added(reference, at):
    price = 1_000_000 - 100 * (at % 50)
    return entry(head(b"A", 2 + at) + struct.pack(">QcI8sI", reference, b"B", 100, b"AAPL    ", price))


def deleted(reference, at):
    return entry(head(b"D", 2 + at) + struct.pack(">Q", reference))


def with_references(day, changed):
    """The day with each order reference changed."""
    at = 0
    while at + 2 <= len(day):
        length = day[at] << 8 | day[at + 1]
        if length == 0 or at + 2 + length > len(day):
            break
        if day[at + 2] in ORDERS:
            places = [at + 13, at + 21] if day[at + 2] == ord("U") else [at + 13]
            for place in places:
                struct.pack_into(">Q", day, place, changed(struct.unpack_from(">Q", day, place)[0]))
        at += 2 + length
    return day


def main():
    if len(sys.argv) != 4:
        sys.exit(__doc__)
    kind = sys.argv[1]
    if kind in ("falling", "shuffled") and not sys.argv[3].isdigit():
        with open(sys.argv[2], "rb") as file:
            day = bytearray(file.read())
        changed = (lambda r: WORD - r) if kind == "falling" else (lambda r: r * MIX & WORD)
        with open(sys.argv[3], "wb") as out:
            out.write(with_references(day, changed))
        return
    count = int(sys.argv[3])
    references = CHOICES["rising" if kind == "live" else kind](count)
    with open(sys.argv[2], "wb") as out:
        out.write(directory())
        out.writelines(added(reference, at) for at, reference in enumerate(references))
        if kind != "live":
            out.writelines(deleted(reference, count + at) for at, reference in enumerate(references))


main()
